//! A parsed module.
use crate::codemap::{CodeMap, FileSpan, Span, Spanned};
use crate::error::{Error, Fault};
use crate::reading;
use crate::syntax::ast::{ArgumentP, AstExpr, AstNoPayload, AstStmt, CallArgsP, ExprP, IdentP, LoadArgP, LoadP, StmtP};
use crate::syntax::held::Held;
use crate::syntax::lint::{self, Lint};
use crate::syntax::lint_suppressions::Suppression;
use crate::syntax::suppressing::suppressions;
use crate::syntax::top_level_stmts::top_level_stmts;
use crate::syntax::uniplate::Visit;
use crate::syntax::{AstLoad, Dialect};
use std::collections::{HashMap, HashSet};
use std::path::Path;

/// The tree of a text, with the file, the dialect and the comments.
///
/// It is cloned and dropped on a stack that is large enough for its tree.
#[derive(Clone, Debug)]
pub struct AstModule {
    codemap: CodeMap,
    statement: Held,
    dialect: Dialect,
    comments: Vec<Span>,
    suppressions: Vec<Suppression>,
}

impl AstModule {
    /// Parses a text that nests no deeper than [`DEFAULT_DEPTH`](crate::DEFAULT_DEPTH). The name of the file is for
    /// positions alone.
    ///
    /// ```
    /// use starlark_syntax::syntax::{AstModule, Dialect};
    ///
    /// let refused = AstModule::parse("a.bzl", "x = = 1\n".to_owned(), &Dialect::Standard).unwrap_err();
    /// assert_eq!(refused.to_string(), "a.bzl:1:5-6: Parse error: unexpected token");
    /// assert_eq!(refused.span().map(|span| span.resolve_span().begin.column), Some(4));
    /// ```
    ///
    /// # Errors
    ///
    /// The first error of the text in this dialect; [`kind`](Error::kind) returns its kind. Also
    /// [`ErrorKind::Memory`](crate::ErrorKind::Memory) if an allocation of the library fails.
    pub fn parse(filename: &str, content: String, dialect: &Dialect) -> crate::Result<Self> {
        AstModule::parse_limited(filename, content, dialect, crate::DEFAULT_DEPTH)
    }

    /// Parses a text that nests no deeper than `depth`. It is this project's own.
    ///
    /// The first token that nests deeper is an error with the kind [`ErrorKind::Lexer`](crate::ErrorKind::Lexer) and
    /// the message `TooDeep`. A text that nests deeper than 250 within the limit is parsed on a thread of its own, with
    /// a stack for this limit. The module is also cloned and dropped within any stack; other code that visits its tree
    /// may recurse as deep as the tree is high, which is at most six more than the limit.
    ///
    /// # Errors
    ///
    /// Those of [`parse`](Self::parse); also [`ErrorKind::Memory`](crate::ErrorKind::Memory) if there is no memory for
    /// a stack.
    pub fn parse_limited(filename: &str, content: String, dialect: &Dialect, depth: u32) -> crate::Result<Self> {
        let codemap = CodeMap::new(filename.to_owned(), content);
        let answer = reading::module(codemap.source(), dialect, depth);
        let (module, depth) = answer.map_err(|fault| fault.in_file(&codemap))?;
        let (statement, comments) = (Held::new(module.statement, depth), module.comments);
        let suppressions = suppressions(&codemap, statement.tree(), &comments);
        Ok(AstModule { codemap, statement, dialect: *dialect, comments, suppressions })
    }

    /// Parses a file, which has to be UTF-8.
    ///
    /// # Errors
    ///
    /// Those of [`parse`](Self::parse), and [`ErrorKind::Io`](crate::ErrorKind::Io) if the file is not read.
    pub fn parse_file(path: &Path, dialect: &Dialect) -> crate::Result<Self> {
        let name = path.to_string_lossy();
        let content = std::fs::read_to_string(path);
        let content = content.map_err(|error| Error::from(Fault::of_reading(format!("{name}: {error}"))))?;
        AstModule::parse(&name, content, dialect)
    }

    /// The file.
    pub fn codemap(&self) -> &CodeMap {
        &self.codemap
    }

    /// The tree: of a text of one statement that statement, else [`Stmt::Statements`](StmtP::Statements).
    pub fn statement(&self) -> &AstStmt {
        self.statement.tree()
    }

    /// The tree, to change it. Comments, and what they suppress, are kept.
    pub fn statement_mut(&mut self) -> &mut AstStmt {
        self.statement.tree_mut()
    }

    /// The dialect in which the text was parsed.
    pub fn dialect(&self) -> &Dialect {
        &self.dialect
    }

    /// The file, the tree, the dialect, and whether the text has `@starlark-rust: typecheck` in it.
    pub fn into_parts(self) -> (CodeMap, AstStmt, Dialect, bool) {
        let typecheck = self.codemap.source().contains("@starlark-rust: typecheck");
        (self.codemap, self.statement.into_tree(), self.dialect, typecheck)
    }

    /// A span of this module in its file.
    pub fn file_span(&self, span: Span) -> FileSpan {
        self.codemap.file_span(span)
    }

    /// Where the comments are, each with its `#`, in the order of the text.
    pub fn comments(&self) -> &[Span] {
        &self.comments
    }

    /// The loads, which are all at the top of the module.
    pub fn loads(&self) -> Vec<AstLoad<'_>> {
        top_level_stmts(self.statement())
            .into_iter()
            .filter_map(|stmt| match &stmt.node {
                StmtP::Load(load) => Some(self.load(load)),
                _ => None,
            })
            .collect()
    }

    fn load<'a>(&self, load: &'a LoadP<AstNoPayload>) -> AstLoad<'a> {
        let symbol = |arg: &'a LoadArgP<AstNoPayload>| (arg.local.ident.as_str(), arg.their.as_str());
        AstLoad {
            span: self.file_span(load.module.span),
            module_id: &load.module,
            symbols: load.args.iter().map(symbol).collect(),
        }
    }

    /// The position of each statement, each before those in it. A list of statements is not one itself.
    pub fn stmt_locations(&self) -> Vec<FileSpan> {
        let located = self.statement().parts().filter_map(|part| match part {
            Visit::Stmt(stmt) if !matches!(stmt.node, StmtP::Statements(_)) => Some(self.file_span(stmt.span)),
            _ => None,
        });
        located.collect()
    }

    /// Replaces each operation whose operator is a key of the table by a call: `a + b` by `plus(a, b)` if `+` has the
    /// value `plus`.
    pub fn replace_binary_operators(&mut self, replace: &HashMap<String, String>) {
        let mut left = Vec::new();
        self.statement_mut().visit_expr_mut(|expr| left.push(expr));
        while let Some(expr) = left.pop() {
            replace_operator(expr, replace);
            expr.node.visit_expr_mut(|child| left.push(child));
        }
    }

    /// Whether a comment `# starlark-lint-disable NAME` suppresses an issue of this name at this place.
    pub fn is_suppressed(&self, issue_short_name: &str, issue_span: Span) -> bool {
        self.suppressions.iter().any(|suppression| suppression.covers(issue_short_name, issue_span))
    }

    /// The issues that no comment suppresses, in the order of where they begin: what `starlark lint` has.
    ///
    /// The names that are global are there for callers of the original: no issue depends on them.
    pub fn lint(&self, _globals: Option<&HashSet<String>>) -> Vec<Lint> {
        let mut found = lint::issues(self);
        found.retain(|issue| !self.is_suppressed(&issue.short_name, issue.location.span));
        found
    }
}

/// Makes a call of the operation, if its operator is in the table.
fn replace_operator(expr: &mut AstExpr, replace: &HashMap<String, String>) {
    let span = expr.span;
    if let ExprP::Op(left, op, right) = &mut expr.node {
        if let Some(function) = replace.get(op.to_string().trim()) {
            let operands = [left, right].map(|operand| std::mem::replace(&mut **operand, none_at(span)));
            let ident = Spanned { node: IdentP { ident: function.clone(), payload: () }, span };
            let callee = Spanned { node: ExprP::Identifier(ident), span };
            let positional = |operand: AstExpr| Spanned { span: operand.span, node: ArgumentP::Positional(operand) };
            let args = operands.map(positional).into();
            expr.node = ExprP::Call(Box::new(callee), CallArgsP { args });
        }
    }
}

/// An expression in place of one that was moved out.
fn none_at(span: Span) -> AstExpr {
    Spanned { node: ExprP::Tuple(Vec::new()), span }
}

/// The parts of a module, as the original gives them.
pub trait AstModuleFields: Sized {
    /// The file.
    fn codemap(&self) -> &CodeMap;

    /// The tree.
    fn statement(&self) -> &AstStmt;

    /// The dialect in which the text was parsed.
    fn dialect(&self) -> &Dialect;

    /// The file, the tree, the dialect, and whether the text has `@starlark-rust: typecheck` in it.
    fn into_parts(self) -> (CodeMap, AstStmt, Dialect, bool);
}

impl AstModuleFields for AstModule {
    fn codemap(&self) -> &CodeMap {
        AstModule::codemap(self)
    }

    fn statement(&self) -> &AstStmt {
        AstModule::statement(self)
    }

    fn dialect(&self) -> &Dialect {
        AstModule::dialect(self)
    }

    fn into_parts(self) -> (CodeMap, AstStmt, Dialect, bool) {
        AstModule::into_parts(self)
    }
}
