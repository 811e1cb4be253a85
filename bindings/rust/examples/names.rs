//! Prints names that are not written as the style says: `cargo run --example names FILE..`.
//!
//! Functions, parameters and variables are in `lower_case`, and constants at the top of a file in `UPPER_CASE`, too. A
//! name with `_` before it is private: no file loads it from another.
use starlark_syntax::codemap::Span;
use starlark_syntax::syntax::ast::{AstAssignIdent, AstExpr, AstStmt, ClauseP, ExprP, Parameter, StmtP};
use starlark_syntax::syntax::uniplate::Visit;
use starlark_syntax::syntax::{AstModule, Dialect};
use std::error::Error;
use std::path::Path;

fn main() -> Result<(), Box<dyn Error>> {
    for path in std::env::args().skip(1) {
        for issue in issues(&AstModule::parse_file(Path::new(&path), &Dialect::Extended)?) {
            println!("{issue}");
        }
    }
    Ok(())
}

/// The issues of a file, in the order of the text, each as `FILE:LINE:COLUMNS: PROBLEM`.
pub fn issues(module: &AstModule) -> Vec<String> {
    let mut names = Names { issues: Vec::new() };
    names.in_stmt(module.statement(), true);
    names.issues.sort();
    let told = names.issues.into_iter().map(|(span, problem)| format!("{}: {problem}", module.file_span(span)));
    told.collect()
}

struct Names {
    issues: Vec<(Span, String)>,
}

impl Names {
    fn in_stmt(&mut self, stmt: &AstStmt, is_top: bool) {
        match &stmt.node {
            StmtP::Load(load) => {
                for arg in load.args.iter().filter(|arg| arg.their.starts_with('_')) {
                    let problem = format!("`{}` is private to {}", arg.their.node, load.module.node);
                    self.issues.push((arg.their.span, problem));
                }
            }
            StmtP::Def(def) => {
                self.lower(&def.name, "function");
                def.params.iter().for_each(|param| self.parameter(&param.node));
            }
            StmtP::For(each) => each.var.visit_lvalue(|name| self.lower(name, "variable")),
            StmtP::Assign(assign) => assign.lhs.visit_lvalue(|name| {
                if !is_top || name.ident.chars().any(char::is_lowercase) {
                    self.lower(name, "variable");
                }
            }),
            _ => {}
        }
        let is_top = is_top && !matches!(stmt.node, StmtP::Def(_));
        stmt.visit_children(|child| match child {
            Visit::Stmt(stmt) => self.in_stmt(stmt, is_top),
            Visit::Expr(expr) => self.in_expr(expr),
        });
    }

    fn in_expr(&mut self, expr: &AstExpr) {
        match &expr.node {
            ExprP::Lambda(lambda) => lambda.params.iter().for_each(|param| self.parameter(&param.node)),
            ExprP::ListComprehension(_, first, rest) | ExprP::DictComprehension(_, first, rest) => {
                first.var.visit_lvalue(|name| self.lower(name, "variable"));
                for clause in rest {
                    if let ClauseP::For(clause) = clause {
                        clause.var.visit_lvalue(|name| self.lower(name, "variable"));
                    }
                }
            }
            _ => {}
        }
        expr.visit_expr(|child| self.in_expr(child));
    }

    fn parameter(&mut self, param: &Parameter) {
        if let Some(name) = param.ident() {
            self.lower(name, "parameter");
        }
    }

    fn lower(&mut self, name: &AstAssignIdent, what: &str) {
        if name.ident.chars().any(char::is_uppercase) {
            self.issues.push((name.span, format!("the {what} `{}` is not in lower_case", name.node)));
        }
    }
}
