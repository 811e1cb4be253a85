//! Prints where each named function is called: `cargo run --example calls < FILE`.
use starlark_syntax::syntax::ast::Expr;
use starlark_syntax::syntax::uniplate::Visit;
use starlark_syntax::syntax::{AstModule, Dialect};
use std::error::Error;

fn main() -> Result<(), Box<dyn Error>> {
    let text = std::io::read_to_string(std::io::stdin())?;
    let module = AstModule::parse("stdin", text, &Dialect::Extended)?;
    for part in module.statement().parts() {
        let Visit::Expr(expr) = part else { continue };
        let Expr::Call(callee, _) = &expr.node else { continue };
        if let Expr::Identifier(name) = &callee.node {
            println!("{} {}", module.file_span(expr.span), name.ident);
        }
    }
    Ok(())
}
