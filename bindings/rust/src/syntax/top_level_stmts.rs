//! The statements at the top of a module.
use crate::syntax::ast::{AstPayload, AstStmtP, StmtP};

/// The statements at the top of a tree: those of its list of statements, or the one statement that it is.
pub fn top_level_stmts<P: AstPayload>(top: &AstStmtP<P>) -> Vec<&AstStmtP<P>> {
    match &top.node {
        StmtP::Statements(parts) => parts.iter().flat_map(top_level_stmts).collect(),
        _ => vec![top],
    }
}

/// The same statements, to change them.
pub fn top_level_stmts_mut<P: AstPayload>(top: &mut AstStmtP<P>) -> Vec<&mut AstStmtP<P>> {
    if !matches!(top.node, StmtP::Statements(_)) {
        return vec![top];
    }
    match &mut top.node {
        StmtP::Statements(parts) => parts.iter_mut().flat_map(top_level_stmts_mut).collect(),
        _ => Vec::new(),
    }
}
