//! Prints the documentation of a file in Markdown: `cargo run --example documentation FILE`.
use starlark_syntax::codemap::Spanned;
use starlark_syntax::syntax::ast::{AstLiteral, AstNoPayload, AstStmt, DefP, ExprP, StmtP};
use starlark_syntax::syntax::top_level_stmts::top_level_stmts;
use starlark_syntax::syntax::{AstModule, Dialect};
use std::error::Error;
use std::path::Path;

fn main() -> Result<(), Box<dyn Error>> {
    for path in std::env::args().skip(1) {
        print!("{}", documentation(&AstModule::parse_file(Path::new(&path), &Dialect::Extended)?));
    }
    Ok(())
}

/// The docstring of a file, and each public function with its parameters, its docstring and its place.
pub fn documentation(module: &AstModule) -> String {
    let mut told = format!("# {}\n", module.codemap().filename());
    told += &paragraph(docstring(module.statement()));
    for stmt in top_level_stmts(module.statement()) {
        if let StmtP::Def(def) = &stmt.node {
            if !def.name.ident.starts_with('_') {
                told += &function(module, def);
            }
        }
    }
    told
}

fn function(module: &AstModule, def: &DefP<AstNoPayload>) -> String {
    let params = def.params.iter().map(|param| param.node.to_string()).collect::<Vec<_>>().join(", ");
    let answer = def.return_type.as_ref().map(|ty| format!(" -> {}", ty.node)).unwrap_or_default();
    let line = module.file_span(def.signature_span()).resolve_span().begin.line + 1;
    let heading = format!("\n## `{}({params}){answer}`, line {line}\n", def.name.ident);
    heading + &paragraph(docstring(&def.body))
}

fn paragraph(text: Option<String>) -> String {
    text.map(|text| format!("\n{text}\n")).unwrap_or_default()
}

/// The string that a block or a file begins with, its lines without the white space around them.
fn docstring(body: &AstStmt) -> Option<String> {
    let first = top_level_stmts(body).into_iter().next()?;
    let StmtP::Expression(Spanned { node: ExprP::Literal(AstLiteral::String(text)), .. }) = &first.node else {
        return None;
    };
    Some(text.trim().lines().map(str::trim).collect::<Vec<_>>().join("\n"))
}
