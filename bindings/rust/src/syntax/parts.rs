//! All that is in a statement or an expression, at any depth.
use crate::codemap::Spanned;
use crate::syntax::ast::*;
use crate::syntax::uniplate::Visit;

/// A part of a tree and the parts in it, at any depth, each before those in it, in the order in which they are in the
/// JSON: [`AstStmtP::parts`](Spanned::parts).
///
/// Types are expressions, and what is assigned to has some. The iterator does not recurse, so it takes no stack for a
/// tree that is deep. It is this project's own.
#[derive(Clone, Debug)]
pub struct Parts<'a, P: AstPayload> {
    /// The parts that come next, the first at the end.
    left: Vec<Visit<'a, P>>,
}

impl<P: AstPayload> Spanned<StmtP<P>> {
    /// This statement, and each statement and expression in it, at any depth.
    ///
    /// ```
    /// use starlark_syntax::syntax::ast::Expr;
    /// use starlark_syntax::syntax::uniplate::Visit;
    /// use starlark_syntax::syntax::{AstModule, Dialect};
    ///
    /// let module = AstModule::parse("a.bzl", "def f(x):\n  return x + [y]\n".to_owned(), &Dialect::Standard)?;
    /// let names = module.statement().parts().filter_map(|part| match part {
    ///     Visit::Expr(expr) => match &expr.node {
    ///         Expr::Identifier(name) => Some(name.ident.as_str()),
    ///         _ => None,
    ///     },
    ///     Visit::Stmt(_) => None,
    /// });
    /// assert_eq!(names.collect::<Vec<_>>(), ["x", "y"]);
    /// # Ok::<(), starlark_syntax::Error>(())
    /// ```
    pub fn parts(&self) -> Parts<'_, P> {
        Parts { left: vec![Visit::Stmt(self)] }
    }
}

impl<P: AstPayload> Spanned<ExprP<P>> {
    /// This expression, and each expression in it, at any depth.
    pub fn parts(&self) -> Parts<'_, P> {
        Parts { left: vec![Visit::Expr(self)] }
    }
}

impl<'a, P: AstPayload> Iterator for Parts<'a, P> {
    type Item = Visit<'a, P>;

    fn next(&mut self) -> Option<Visit<'a, P>> {
        let part = self.left.pop()?;
        let begin = self.left.len();
        match part {
            Visit::Stmt(stmt) => self.add_in_stmt(&stmt.node),
            Visit::Expr(expr) => self.add_in_expr(&expr.node),
        }
        self.left[begin..].reverse();
        Some(part)
    }
}

impl<'a, P: AstPayload> Parts<'a, P> {
    fn add(&mut self, expr: &'a AstExprP<P>) {
        self.left.push(Visit::Expr(expr));
    }

    fn add_all(&mut self, exprs: impl IntoIterator<Item = &'a AstExprP<P>>) {
        self.left.extend(exprs.into_iter().map(Visit::Expr));
    }

    fn add_stmt(&mut self, stmt: &'a AstStmtP<P>) {
        self.left.push(Visit::Stmt(stmt));
    }

    fn add_in_stmt(&mut self, stmt: &'a StmtP<P>) {
        match stmt {
            StmtP::Break | StmtP::Continue | StmtP::Pass | StmtP::Load(_) => {}
            StmtP::Return(value) => self.add_all(value),
            StmtP::Expression(value) => self.add(value),
            StmtP::Assign(assign) => {
                self.add_in_target(&assign.lhs);
                self.add_all(assign.ty.as_ref().map(|ty| &ty.node.expr));
                self.add(&assign.rhs);
            }
            StmtP::AssignModify(lhs, _, rhs) => {
                self.add_in_target(lhs);
                self.add(rhs);
            }
            StmtP::Statements(parts) => self.left.extend(parts.iter().map(Visit::Stmt)),
            StmtP::If(condition, then) => {
                self.add(condition);
                self.add_stmt(then);
            }
            StmtP::IfElse(condition, blocks) => {
                self.add(condition);
                self.add_stmt(&blocks.0);
                self.add_stmt(&blocks.1);
            }
            StmtP::For(each) => {
                self.add_in_target(&each.var);
                self.add(&each.over);
                self.add_stmt(&each.body);
            }
            StmtP::Def(def) => {
                self.add_in_parameters(&def.params);
                self.add_all(def.return_type.as_ref().map(|ty| &ty.node.expr));
                self.add_stmt(&def.body);
            }
        }
    }

    fn add_in_expr(&mut self, expr: &'a ExprP<P>) {
        match expr {
            ExprP::Identifier(_) | ExprP::Literal(_) => {}
            ExprP::Tuple(items) | ExprP::List(items) => self.add_all(items),
            ExprP::FString(text) => self.add_all(&text.node.expressions),
            ExprP::Dot(operand, _)
            | ExprP::Not(operand)
            | ExprP::Minus(operand)
            | ExprP::Plus(operand)
            | ExprP::BitNot(operand) => self.add(operand),
            ExprP::Call(callee, args) => {
                self.add(callee);
                self.add_all(args.args.iter().map(|arg| arg.node.expr()));
            }
            ExprP::Index(parts) => self.add_all([&parts.0, &parts.1]),
            ExprP::Index2(parts) | ExprP::If(parts) => self.add_all([&parts.0, &parts.1, &parts.2]),
            ExprP::Slice(array, start, stop, step) => {
                self.add(array);
                self.add_all([start, stop, step].into_iter().flatten().map(|end| &**end));
            }
            ExprP::Lambda(lambda) => {
                self.add_in_parameters(&lambda.params);
                self.add(&lambda.body);
            }
            ExprP::Op(left, _, right) => self.add_all([&**left, &**right]),
            ExprP::Dict(entries) => self.add_all(entries.iter().flat_map(|(key, value)| [key, value])),
            ExprP::ListComprehension(element, first, rest) => {
                self.add(element);
                self.add_in_clauses(first, rest);
            }
            ExprP::DictComprehension(entry, first, rest) => {
                self.add_all([&entry.0, &entry.1]);
                self.add_in_clauses(first, rest);
            }
        }
    }

    fn add_in_parameters(&mut self, params: &'a [AstParameterP<P>]) {
        for param in params {
            if let ParameterP::Normal(_, ty, _) | ParameterP::Args(_, ty) | ParameterP::KwArgs(_, ty) = &param.node {
                self.add_all(ty.as_ref().map(|ty| &ty.node.expr));
            }
            if let ParameterP::Normal(_, _, Some(default)) = &param.node {
                self.add(default);
            }
        }
    }

    fn add_in_clauses(&mut self, first: &'a ForClauseP<P>, rest: &'a [ClauseP<P>]) {
        self.add_in_for(first);
        for clause in rest {
            match clause {
                ClauseP::For(clause) => self.add_in_for(clause),
                ClauseP::If(condition) => self.add(condition),
            }
        }
    }

    fn add_in_for(&mut self, clause: &'a ForClauseP<P>) {
        self.add_in_target(&clause.var);
        self.add(&clause.over);
    }

    fn add_in_target(&mut self, target: &'a AstAssignTargetP<P>) {
        target.node.visit_expr(|expr| self.add(expr));
    }
}
