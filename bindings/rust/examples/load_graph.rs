//! Prints which file loads what from where: `cargo run --example load_graph FILE..`.
use starlark_syntax::syntax::{AstModule, Dialect};
use std::collections::BTreeMap;
use std::error::Error;
use std::path::Path;

fn main() -> Result<(), Box<dyn Error>> {
    let mut graph = LoadGraph::default();
    for path in std::env::args().skip(1) {
        graph.add(&AstModule::parse_file(Path::new(&path), &Dialect::Extended)?);
    }
    print!("{}", graph.to_dot());
    Ok(())
}

/// The modules that each file loads, with what it loads from them.
#[derive(Default)]
pub struct LoadGraph {
    edges: BTreeMap<(String, String), Vec<String>>,
}

impl LoadGraph {
    /// Adds the loads of a file.
    pub fn add(&mut self, module: &AstModule) {
        for load in module.loads() {
            let file = load.span.filename().to_owned();
            let symbols = load.symbols.iter().map(|(local, their)| match local == their {
                true => (*local).to_owned(),
                false => format!("{their} as {local}"),
            });
            self.edges.entry((file, load.module_id.to_owned())).or_default().extend(symbols);
        }
    }

    /// The graph in the notation of Graphviz.
    pub fn to_dot(&self) -> String {
        let edges = self.edges.iter().map(|((file, module), symbols)| {
            let symbols = symbols.join(", ");
            format!("  {file:?} -> {module:?} [label = {symbols:?}];\n")
        });
        format!("digraph loads {{\n{}}}\n", edges.collect::<String>())
    }
}
