//! The tree of a module, however high it is.
//!
//! A tree drops and clones its nodes by recursion: its types have no `Drop` of their own, so that code may take nodes
//! apart. Any stack holds that for a tree that is no higher than [`LOW`]. A higher tree is taken apart before it is
//! dropped, and cloned on a stack that is made for it.
use crate::codemap::{Span, Spanned};
use crate::stack::{self, LOW};
use crate::syntax::ast::*;
use crate::syntax::uniplate::{Visit, VisitMut};
use std::fmt;
use std::mem;

/// A tree.
pub(crate) struct Held {
    tree: AstStmt,
    /// Whether the tree is known to be low.
    is_low: bool,
}

impl Held {
    /// A tree whose text nests no deeper than this.
    pub(crate) fn new(tree: AstStmt, depth: u32) -> Held {
        Held { tree, is_low: depth <= LOW }
    }

    pub(crate) fn tree(&self) -> &AstStmt {
        &self.tree
    }

    /// The tree, to change it: it may be of any height then.
    pub(crate) fn tree_mut(&mut self) -> &mut AstStmt {
        self.is_low = false;
        &mut self.tree
    }

    pub(crate) fn into_tree(mut self) -> AstStmt {
        mem::replace(&mut self.tree, no_stmt())
    }
}

impl fmt::Debug for Held {
    fn fmt(&self, f: &mut fmt::Formatter<'_>) -> fmt::Result {
        self.tree.fmt(f)
    }
}

impl Clone for Held {
    fn clone(&self) -> Held {
        let tree = if self.is_low { self.tree.clone() } else { cloned(&self.tree) };
        Held { tree, is_low: self.is_low }
    }
}

impl Drop for Held {
    fn drop(&mut self) {
        if !self.is_low {
            take_apart(mem::replace(&mut self.tree, no_stmt()));
        }
    }
}

fn no_stmt() -> AstStmt {
    Spanned { node: Stmt::Pass, span: Span::default() }
}

fn no_expr() -> AstExpr {
    Spanned { node: Expr::Tuple(Vec::new()), span: Span::default() }
}

/// A clone that is made on a stack for the height of the tree.
///
/// # Panics
///
/// There is no memory for the stack.
fn cloned(tree: &AstStmt) -> AstStmt {
    let height = height(tree);
    if height <= LOW as usize {
        return tree.clone();
    }
    match stack::with_levels(height, || tree.clone()) {
        Ok(clone) => clone,
        Err(error) => panic!("no stack to clone a tree: {error}"),
    }
}

/// How many nodes are in one another, at most. It may say some more.
fn height(tree: &AstStmt) -> usize {
    let mut highest = 0;
    let mut left = vec![(Visit::Stmt(tree), 1)];
    while let Some((part, level)) = left.pop() {
        let inside = level + 1 + tuples(part);
        highest = highest.max(inside);
        part.visit_children(|child| left.push((child, inside)));
    }
    highest
}

/// How many tuples are in one another in the targets of a node.
fn tuples(part: Visit<'_, AstNoPayload>) -> usize {
    let mut left = Vec::new();
    match part {
        Visit::Stmt(stmt) => stmt.node.visit_target(|target| left.push((target, 1))),
        Visit::Expr(expr) => expr.node.visit_target(|target| left.push((target, 1))),
    }
    let mut most = 0;
    while let Some((target, level)) = left.pop() {
        most = most.max(level);
        if let AssignTarget::Tuple(items) = target {
            left.extend(items.iter().map(|item| (&item.node, level + 1)));
        }
    }
    most
}

/// Drops a tree without recursion: each node after what was in it was taken out.
fn take_apart(tree: AstStmt) {
    let (mut stmts, mut exprs) = (vec![tree], Vec::new());
    while let Some(mut stmt) = stmts.pop() {
        stmt.node.visit_children_mut(|child| match child {
            VisitMut::Stmt(child) => stmts.push(mem::replace(child, no_stmt())),
            VisitMut::Expr(child) => exprs.push(mem::replace(child, no_expr())),
        });
        stmt.node.visit_target_mut(flatten);
        while let Some(mut expr) = exprs.pop() {
            expr.node.visit_expr_mut(|child| exprs.push(mem::replace(child, no_expr())));
            expr.node.visit_target_mut(flatten);
        }
    }
}

/// Drops a target without recursion over its tuples.
fn flatten(target: &mut AssignTarget) {
    let mut left = vec![mem::replace(target, AssignTarget::Tuple(Vec::new()))];
    while let Some(target) = left.pop() {
        if let AssignTarget::Tuple(items) = target {
            left.extend(items.into_iter().map(|item| item.node));
        }
    }
}
