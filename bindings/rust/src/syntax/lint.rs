//! The linter: what `starlark lint` has.
use crate::codemap::{FileSpan, Span};
use crate::syntax::AstModule;
use crate::syntax::ast::{AstExpr, AstLiteral, AstNoPayload, Expr, LoadArgP, StmtP};
use crate::syntax::top_level_stmts::top_level_stmts;
use crate::syntax::uniplate::Visit;
use std::collections::{HashMap, HashSet};
use std::fmt;

/// How grave an issue is.
#[derive(Clone, Copy, Debug, PartialEq, Eq, Hash)]
#[non_exhaustive]
pub enum EvalSeverity {
    /// The module still does what it says.
    Warning,
}

impl fmt::Display for EvalSeverity {
    fn fmt(&self, f: &mut fmt::Formatter<'_>) -> fmt::Result {
        match self {
            EvalSeverity::Warning => f.write_str("Warning"),
        }
    }
}

/// An issue of a module. It prints as ``a.bzl:1:11-14: `a` is loaded from "m" and never used [unused-load]``.
#[derive(Clone, Debug, PartialEq, Eq)]
pub struct Lint {
    /// Where it is.
    pub location: FileSpan,
    /// What it is: `unused-load` or `duplicate-key`.
    pub short_name: String,
    /// How grave it is.
    pub severity: EvalSeverity,
    /// What it is, in words.
    pub problem: String,
    /// The text at its place.
    pub original: String,
}

impl fmt::Display for Lint {
    fn fmt(&self, f: &mut fmt::Formatter<'_>) -> fmt::Result {
        write!(f, "{}: {} [{}]", self.location, self.problem, self.short_name)
    }
}

/// All issues, also those that a comment suppresses, in the order of where they begin; of two that begin at one place
/// an unused load comes first, and then the one that is first in the tree.
///
/// `unused-load` is a symbol of a load whose local name the module does not read. `duplicate-key` is a key of a
/// dictionary's literal that is a string literal with the value of an earlier such key of the same literal.
pub(crate) fn issues(module: &AstModule) -> Vec<Lint> {
    let mut found = unused_loads(module);
    found.extend(duplicate_keys(module));
    found.sort_by_key(|issue| issue.location.span.begin());
    found
}

fn issue(module: &AstModule, short_name: &str, span: Span, problem: String) -> Lint {
    let location = module.file_span(span);
    let original = location.source_span().to_owned();
    Lint { location, short_name: short_name.to_owned(), severity: EvalSeverity::Warning, problem, original }
}

fn unused_loads(module: &AstModule) -> Vec<Lint> {
    let names = names_read(module);
    let loads = top_level_stmts(module.statement()).into_iter().filter_map(|stmt| match &stmt.node {
        StmtP::Load(load) => Some(load),
        _ => None,
    });
    let unused = loads.flat_map(|load| {
        let is_unread = |arg: &&LoadArgP<AstNoPayload>| !names.contains(arg.local.ident.as_str());
        load.args.iter().filter(is_unread).map(|arg| {
            let problem = format!("`{}` is loaded from {:?} and never used", arg.local.ident, load.module.node);
            issue(module, "unused-load", arg.span(), problem)
        })
    });
    unused.collect()
}

/// The names that a module reads.
fn names_read(module: &AstModule) -> HashSet<&str> {
    let exprs = module.statement().parts().filter_map(as_expr);
    let names = exprs.filter_map(|expr| match &expr.node {
        Expr::Identifier(name) => Some(name.ident.as_str()),
        _ => None,
    });
    names.collect()
}

fn as_expr(part: Visit<'_, AstNoPayload>) -> Option<&AstExpr> {
    match part {
        Visit::Expr(expr) => Some(expr),
        Visit::Stmt(_) => None,
    }
}

fn duplicate_keys(module: &AstModule) -> Vec<Lint> {
    let exprs = module.statement().parts().filter_map(as_expr);
    let dicts = exprs.filter_map(|expr| match &expr.node {
        Expr::Dict(entries) => Some(entries),
        _ => None,
    });
    dicts.flat_map(|entries| repeated_keys(module, entries)).collect()
}

/// The keys of a dictionary's literal that an earlier key of it equals.
fn repeated_keys(module: &AstModule, entries: &[(AstExpr, AstExpr)]) -> Vec<Lint> {
    let mut first = HashMap::new();
    let mut found = Vec::new();
    for (key, _) in entries {
        let Expr::Literal(AstLiteral::String(text)) = &key.node else { continue };
        let earlier = *first.entry(text.as_str()).or_insert(key.span);
        if earlier != key.span {
            let at = module.codemap().resolve_span(earlier);
            let problem = format!("the key {:?} is repeated, first at {at}", text.node);
            found.push(issue(module, "duplicate-key", key.span, problem));
        }
    }
    found
}
