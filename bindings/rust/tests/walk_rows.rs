//! The rows of `starlark_tree_rows`: what each visitor calls its function with, and what it changes.
mod book;

use book::{Row, rows};
use starlark_syntax::codemap::{Span, Spanned};
use starlark_syntax::syntax::ast::*;
use starlark_syntax::syntax::top_level_stmts::{top_level_stmts, top_level_stmts_mut};
use starlark_syntax::syntax::uniplate::{Visit, VisitMut};
use starlark_syntax::syntax::{AstModule, Dialect};
use std::convert::Infallible;

fn module_of(text: &str) -> AstModule {
    AstModule::parse("stdin", text.to_owned(), &Dialect::Extended).expect("a module")
}

/// The expression that a statement is.
fn expr_of(stmt: &Stmt) -> &AstExpr {
    let StmtP::Expression(expr) = stmt else { panic!("{stmt}") };
    expr
}

fn target_of(stmt: &Stmt) -> &AstAssignTarget {
    let StmtP::Assign(assign) = stmt else { panic!("{stmt}") };
    &assign.lhs
}

fn def_of(stmt: &Stmt) -> &DefP<AstNoPayload> {
    let StmtP::Def(def) = stmt else { panic!("{stmt}") };
    def
}

/// The expression that a statement is, or the statement.
fn part_of(stmt: &AstStmt) -> Visit<'_, AstNoPayload> {
    if let StmtP::Expression(expr) = &stmt.node { Visit::Expr(expr) } else { Visit::Stmt(stmt) }
}

fn place(part: Visit<'_, AstNoPayload>) -> Span {
    match part {
        Visit::Stmt(stmt) => stmt.span,
        Visit::Expr(expr) => expr.span,
    }
}

/// Where the nodes are with which a visitor calls its function, or none if the original has no such visitor.
fn walked(visitor: &str, stmt: &AstStmt) -> Option<Vec<Span>> {
    let mut found = Vec::new();
    let add = &mut |span: Span| {
        found.push(span);
        Ok::<(), Infallible>(())
    };
    let mut see = |expr: &AstExpr| add(expr.span).unwrap_or_default();
    match visitor {
        "ExprP::visit_expr" => expr_of(stmt).visit_expr(see),
        "ExprP::visit_expr_err" => expr_of(stmt).visit_expr_err(|expr| add(expr.span)).unwrap_or_default(),
        "StmtP::visit_expr" => stmt.visit_expr(see),
        "StmtP::visit_expr_result" => stmt.visit_expr_result(|expr| add(expr.span)).unwrap_or_default(),
        "StmtP::visit_stmt" => stmt.visit_stmt(|child| add(child.span).unwrap_or_default()),
        "StmtP::visit_stmt_result" => stmt.visit_stmt_result(|child| add(child.span)).unwrap_or_default(),
        "StmtP::visit_ident" => stmt.visit_ident(|name| add(name.span)).unwrap_or_default(),
        "visit_children_err" => stmt.visit_children_err(|part| add(place(part))).unwrap_or_default(),
        "Visit::visit_children" => part_of(stmt).visit_children(|part| add(place(part)).unwrap_or_default()),
        "Visit::visit_children_err" => {
            part_of(stmt).visit_children_err(|part| add(place(part))).unwrap_or_default();
        }
        "DefP::visit_children_err" => def_of(stmt).visit_children_err(|part| add(place(part))).unwrap_or_default(),
        "AssignTargetP::visit_expr" => target_of(stmt).visit_expr(see),
        "AssignTargetP::visit_lvalue" => target_of(stmt).visit_lvalue(|name| add(name.span).unwrap_or_default()),
        "ParameterP::visit_expr" => def_of(stmt).params.iter().for_each(|param| param.visit_expr(&mut see)),
        "ClauseP::visit_expr" => {
            let ExprP::ListComprehension(_, first, rest) = &expr_of(stmt).node else { panic!("{stmt:?}") };
            ClauseP::For((**first).clone()).visit_expr(&mut see);
            rest.iter().for_each(|clause| clause.visit_expr(&mut see));
        }
        "top_level_stmts" => top_level_stmts(stmt).iter().for_each(|stmt| add(stmt.span).unwrap_or_default()),
        _ => return None,
    }
    Some(found)
}

#[test]
fn visitors_find_what_the_rows_say() {
    let mut tried = 0;
    for Row { call, text, wanted } in rows("starlark_tree_rows", "\n---\n") {
        let Some(visitor) = call.strip_prefix("walk ") else { continue };
        let module = module_of(&text);
        let Some(found) = walked(visitor, module.statement()) else { continue };
        let found = found.iter().map(|span| format!("{}..{}", span.begin().get(), span.end().get()));
        assert_eq!(found.collect::<Vec<_>>().join(" "), wanted.trim_end(), "{call}\n{text}");
        tried += 1;
    }
    assert!(tried >= 120, "{tried}");
}

/// Counts what is written. At the count of `stop`, if that is not 0, writing stops after it.
struct Pen {
    written: usize,
    stop: usize,
    by_not: bool,
}

impl Pen {
    fn write(&mut self) -> Result<(), ()> {
        self.written += 1;
        if self.written == self.stop { Err(()) } else { Ok(()) }
    }

    /// Writes `...` over an expression, or `not` before it.
    fn expr(&mut self, expr: &mut AstExpr) -> Result<(), ()> {
        let node = std::mem::replace(&mut expr.node, ExprP::Literal(AstLiteral::Ellipsis));
        if self.by_not {
            expr.node = ExprP::Not(Box::new(Spanned { node, span: expr.span }));
        }
        self.write()
    }

    /// Writes `pass` over a statement.
    fn stmt(&mut self, stmt: &mut AstStmt) -> Result<(), ()> {
        stmt.node = StmtP::Pass;
        self.write()
    }

    fn part(&mut self, part: VisitMut<'_, AstNoPayload>) -> Result<(), ()> {
        match part {
            VisitMut::Stmt(stmt) => self.stmt(stmt),
            VisitMut::Expr(expr) => self.expr(expr),
        }
    }

    /// Writes a name in capitals.
    fn name(&mut self, name: &mut AstAssignIdent) -> Result<(), ()> {
        name.ident = name.ident.to_uppercase();
        self.write()
    }

    /// Writes over what the visitor finds, or returns none if the original has no such visitor.
    fn visit(&mut self, visitor: &str, stmt: &mut AstStmt) -> Option<Result<(), ()>> {
        let mut done = Ok(());
        match (visitor, &mut stmt.node) {
            ("ExprP::visit_expr_mut", StmtP::Expression(expr)) => expr.visit_expr_mut(|e| done = self.expr(e)),
            ("ExprP::visit_expr_err_mut", StmtP::Expression(expr)) => done = expr.visit_expr_err_mut(|e| self.expr(e)),
            ("AssignTargetP::visit_expr_mut", StmtP::Assign(a)) => a.lhs.visit_expr_mut(|e| done = self.expr(e)),
            ("AssignTargetP::visit_lvalue_mut", StmtP::Assign(a)) => a.lhs.visit_lvalue_mut(|n| done = self.name(n)),
            ("ParameterP::visit_expr_mut", StmtP::Def(def)) => {
                def.params.iter_mut().for_each(|param| param.visit_expr_mut(|e| done = self.expr(e)));
            }
            ("ClauseP::visit_expr_mut", StmtP::Expression(expr)) => {
                let ExprP::ListComprehension(_, first, rest) = &mut expr.node else { panic!("{expr:?}") };
                first.visit_expr_mut(|e| done = self.expr(e));
                rest.iter_mut().for_each(|clause| clause.visit_expr_mut(|e| done = self.expr(e)));
            }
            ("StmtP::visit_expr_mut", stmt) => stmt.visit_expr_mut(|e| done = self.expr(e)),
            ("StmtP::visit_stmt_mut", stmt) => stmt.visit_stmt_mut(|s| done = self.stmt(s)),
            ("StmtP::visit_children_mut", stmt) => stmt.visit_children_mut(|part| done = self.part(part)),
            ("StmtP::visit_children_err_mut", stmt) => done = stmt.visit_children_err_mut(|part| self.part(part)),
            ("StmtP::visit_type_expr_err_mut", stmt) => {
                done = stmt.visit_type_expr_err_mut(&mut |ty: &mut AstTypeExpr| self.expr(&mut ty.expr));
            }
            ("top_level_stmts_mut", _) => {
                top_level_stmts_mut(stmt).into_iter().for_each(|s| done = self.stmt(s));
            }
            _ => return None,
        }
        Some(done)
    }
}

/// What a visitor writes, and what it writes if it is stopped after one, two and so on.
fn written(visitor: &str, by_not: bool, text: &str) -> Option<String> {
    let mut told = String::new();
    for stop in 0.. {
        let mut pen = Pen { written: 0, stop, by_not };
        let mut module = module_of(text);
        let done = pen.visit(visitor, module.statement_mut())?;
        if stop > 0 && done.is_ok() || visitor.contains("_err") && stop > pen.written {
            return Some(told);
        }
        let stopped = if done.is_err() { ", stopped" } else { "" };
        told += &format!("{} written{stopped}: {}\n", pen.written, module.statement().to_string().trim_end());
        if !visitor.contains("_err") {
            return Some(told);
        }
    }
    None
}

#[test]
fn visitors_change_what_the_rows_say() {
    let mut tried = 0;
    for Row { call, text, wanted } in rows("starlark_tree_rows", "\n---\n") {
        let Some(visitor) = call.strip_prefix("write ") else { continue };
        let by_not = visitor.ends_with(" by not");
        let Some(told) = written(visitor.trim_end_matches(" by not"), by_not, &text) else { continue };
        assert_eq!(told.trim_end(), wanted.trim_end(), "{call}\n{text}");
        tried += 1;
    }
    assert!(tried >= 65, "{tried}");
}
