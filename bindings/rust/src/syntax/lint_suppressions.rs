//! What a comment suppresses, and where.
use crate::codemap::{CodeMap, Pos, Span};

/// What a comment that suppresses something begins with, after its `#` and white space.
const PREFIX: &str = "starlark-lint-disable ";

/// What one block of comments suppresses.
#[derive(Clone, Debug)]
pub(crate) struct Suppression {
    /// The issues that are suppressed.
    names: Vec<String>,
    /// Where the comments are.
    comments: Span,
    /// Where issues are suppressed: the lines of the comments, and mostly the line after them.
    covered: Span,
    /// Whether that has the line after them.
    has_next_line: bool,
}

impl Suppression {
    /// Whether it suppresses an issue of this name there. An issue that ends with the newline after the comments is not
    /// on the line after them.
    pub(crate) fn covers(&self, name: &str, issue: Span) -> bool {
        let ends_before = self.has_next_line && issue.end().get().checked_sub(1) == Some(self.comments.end().get());
        !ends_before && issue.intersects(self.covered) && self.names.iter().any(|each| each == name)
    }

    /// What a block of comments suppresses, if one of them names something: that one, and all after it.
    pub(crate) fn of_block(file: &CodeMap, block: &[Span]) -> Option<Suppression> {
        let first = block.iter().position(|comment| !names_in(file, *comment).is_empty())?;
        let block = &block[first..];
        let last_line = file.find_line(block.last()?.begin());
        let comments = Span::merge_all(block.iter().copied());
        let lines = block.iter().map(|comment| file.line_span_trim_newline(file.find_line(comment.begin())));
        let lines = Span::merge_all(lines);
        let has_next_line = block.len() > 1 || is_alone(file, comments, lines);
        let next_line = if has_next_line { file.line_span_opt(last_line + 1) } else { None };
        Some(Suppression {
            names: block.iter().flat_map(|comment| names_in(file, *comment)).collect(),
            comments,
            covered: next_line.iter().fold(lines, |covered, line| covered.merge(*line)),
            has_next_line,
        })
    }
}

/// Whether a comment is all that its line has but white space before it.
fn is_alone(file: &CodeMap, comment: Span, line: Span) -> bool {
    comment.end() == line.end() && file.source_span(Span::new(line.begin(), comment.begin())).trim().is_empty()
}

/// The issues that a comment names.
fn names_in(file: &CodeMap, comment: Span) -> Vec<String> {
    let text = file.source_span(Span::new(Pos::new(comment.begin().get() + 1), comment.end()));
    let listed = text.trim_start().strip_prefix(PREFIX).unwrap_or_default();
    listed.split([' ', ',']).map(str::trim).filter(|name| !name.is_empty()).map(str::to_owned).collect()
}
