//! The blocks of comments in a text: comments with no token between.
//!
//! The library's result has the comments and the tree, and not the tokens. So this says from the text whether a
//! token is between two comments: whatever is not whitespace, and the newline that ends a statement.
use crate::codemap::{CodeMap, Pos, Span};
use crate::syntax::ast::{AstLiteral, AstStmt, Expr, Stmt};
use crate::syntax::lint_suppressions::Suppression;
use crate::syntax::uniplate::Visit;

/// What the comments of a module suppress, in the order of the text.
pub(crate) fn suppressions(file: &CodeMap, statement: &AstStmt, comments: &[Span]) -> Vec<Suppression> {
    if !file.source().contains("starlark-lint-disable") {
        return Vec::new();
    }
    let brackets = Brackets::new(file, statement, comments);
    let mut found = Vec::new();
    let mut begin = 0;
    for end in 1..=comments.len() {
        let goes_on =
            comments.get(end).is_some_and(|next| !has_token_between(file, &brackets, comments, end - 1, *next));
        if !goes_on {
            found.extend(Suppression::of_block(file, &comments[begin..end]));
            begin = end;
        }
    }
    found
}

/// Whether a token is between the comment of this index and the one after it.
fn has_token_between(file: &CodeMap, brackets: &Brackets, comments: &[Span], index: usize, next: Span) -> bool {
    let comment = comments[index];
    let between = file.source_span(Span::new(comment.end(), next.begin()));
    if !between.chars().all(|c| matches!(c, ' ' | '\t' | '\r' | '\n' | '\\')) {
        return true;
    }
    !brackets.have(comment.begin()) && !begins_line(file, comments, index)
}

/// Whether only white space is before a comment on its line, and that line is not joined to the one before by a `\`.
fn begins_line(file: &CodeMap, comments: &[Span], index: usize) -> bool {
    let before = file.source_span(Span::new(Pos::new(0), comments[index].begin()));
    let before = before.trim_end_matches([' ', '\t']);
    let Some(lines) = before.strip_suffix('\n') else { return before.is_empty() };
    let lines = lines.strip_suffix('\r').unwrap_or(lines);
    let is_in_comment = index > 0 && comments[index - 1].end().get() as usize >= lines.len();
    !lines.ends_with('\\') || is_in_comment
}

/// The open delimiters.
struct Brackets {
    /// Each position at which the count of open delimiters changes, with the count after it.
    changes: Vec<(usize, usize)>,
    /// The outermost f-strings in order, in whose replacement fields a newline is whitespace, too.
    f_strings: Vec<Span>,
}

impl Brackets {
    fn new(file: &CodeMap, statement: &AstStmt, comments: &[Span]) -> Brackets {
        let (strings, f_strings) = strings_in(statement);
        let mut opaque = [&strings, &f_strings, comments].concat();
        opaque.sort();
        let mut opaque = opaque.into_iter().map(Span::range).peekable();
        let mut changes = Vec::new();
        let mut depth = 0usize;
        for (at, byte) in file.source().bytes().enumerate() {
            while opaque.next_if(|range| range.end <= at).is_some() {}
            if opaque.peek().is_some_and(|range| range.contains(&at)) {
                continue;
            }
            depth = match byte {
                b'(' | b'[' | b'{' => depth + 1,
                b')' | b']' | b'}' => depth.saturating_sub(1),
                _ => continue,
            };
            changes.push((at, depth));
        }
        Brackets { changes, f_strings: outermost(f_strings) }
    }

    /// Whether the position is in delimiters.
    fn have(&self, pos: Pos) -> bool {
        let before = self.changes.partition_point(|(at, _)| *at < pos.get() as usize);
        let depth = self.changes[..before].last().map_or(0, |(_, depth)| *depth);
        let before = self.f_strings.partition_point(|span| span.begin() <= pos);
        depth > 0 || self.f_strings[..before].last().is_some_and(|span| span.contains(pos))
    }
}

/// Those of the spans that are in no other, in order.
fn outermost(mut spans: Vec<Span>) -> Vec<Span> {
    spans.sort();
    let mut found: Vec<Span> = Vec::new();
    for span in spans {
        if found.last().is_none_or(|last| last.end() <= span.begin()) {
            found.push(span);
        }
    }
    found
}

/// Where the strings of a tree are, and its f-strings.
fn strings_in(statement: &AstStmt) -> (Vec<Span>, Vec<Span>) {
    let (mut strings, mut f_strings) = (Vec::new(), Vec::new());
    for part in statement.parts() {
        match part {
            Visit::Expr(expr) => match &expr.node {
                Expr::Literal(AstLiteral::String(_) | AstLiteral::Bytes(_)) => strings.push(expr.span),
                Expr::FString(_) => f_strings.push(expr.span),
                _ => {}
            },
            Visit::Stmt(stmt) => {
                if let Stmt::Load(load) = &stmt.node {
                    strings.push(load.module.span);
                    strings.extend(load.args.iter().map(|arg| arg.their.span));
                }
            }
        }
    }
    (strings, f_strings)
}

#[cfg(test)]
mod tests {
    use crate::codemap::{Pos, Span};
    use crate::syntax::{AstModule, Dialect};

    /// Whether `name` is suppressed at the last `here` of the text.
    fn is_suppressed(text: &str, name: &str) -> bool {
        let module = AstModule::parse("a.bzl", text.to_owned(), &Dialect::Extended).expect("a module");
        let begin = text.rfind("here").and_then(|at| u32::try_from(at).ok()).map(Pos::new).expect("a place");
        module.is_suppressed(name, Span::new(begin, begin + 4))
    }

    #[test]
    fn a_block_ends_with_a_token() {
        let comment = "# starlark-lint-disable a";
        assert!(is_suppressed(&format!("{comment}\n# b\nz + here"), "a"));
        assert!(!is_suppressed(&format!("{comment}\n# b\nz + here"), "b"));
        assert!(!is_suppressed(&format!("x = 1 {comment}\n# b\nz + here"), "a"));
        assert!(is_suppressed(&format!("x = [1, {comment}\n# b\nz + here]"), "a"));
        assert!(is_suppressed(&format!("x = ( {comment}\n# b\nz + here)"), "a"));
        assert!(!is_suppressed(&format!("x = \"(\" {comment}\n# b\nz + here"), "a"));
        assert!(!is_suppressed(&format!("x = f\"({{[1]}}\" {comment}\n# b\nz + here"), "a"));
        assert!(!is_suppressed(&format!("x = y # (\nz = 1 {comment}\n# b\nz + here"), "a"));
        assert!(!is_suppressed(&format!("load(\"(\", \"[\", b = \"{{\") {comment}\n# b\nz + here"), "a"));
        assert!(!is_suppressed(&format!("x = 1 \\\n {comment}\n# b\nz + here"), "a"));
        assert!(is_suppressed(&format!("# \\\n{comment}\r\n\n  # b\nz + here"), "a"));
        assert!(!is_suppressed(&format!("if x:\n  y {comment}\n# b\nz + here"), "a"));
    }
}
