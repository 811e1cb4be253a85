//! Positions in a text: byte offsets, spans, and the lines and columns that they are.
use std::fmt;
use std::ops::{Add, Deref, DerefMut, Range};
use std::sync::Arc;

/// A byte offset in a text.
#[derive(Clone, Copy, Debug, Default, PartialEq, Eq, PartialOrd, Ord, Hash)]
pub struct Pos(u32);

impl Pos {
    /// The position after `offset` bytes.
    pub const fn new(offset: u32) -> Pos {
        Pos(offset)
    }

    /// How many bytes are before the position.
    pub const fn get(self) -> u32 {
        self.0
    }
}

impl Add<u32> for Pos {
    type Output = Pos;

    /// The position `bytes` further on, at most `u32::MAX`.
    fn add(self, bytes: u32) -> Pos {
        Pos(self.0.saturating_add(bytes))
    }
}

/// A range of a text in bytes.
#[derive(Clone, Copy, Debug, Default, PartialEq, Eq, PartialOrd, Ord, Hash)]
pub struct Span {
    begin: Pos,
    end: Pos,
}

impl Span {
    /// The span from `begin` to before `end`.
    pub const fn new(begin: Pos, end: Pos) -> Span {
        Span { begin, end }
    }

    /// Where it begins.
    pub const fn begin(self) -> Pos {
        self.begin
    }

    /// The position after its last byte.
    pub const fn end(self) -> Pos {
        self.end
    }

    /// How many bytes it has.
    pub const fn len(self) -> u32 {
        self.end.0.saturating_sub(self.begin.0)
    }

    /// Whether it has no bytes.
    pub const fn is_empty(self) -> bool {
        self.len() == 0
    }

    /// The empty span at its end.
    pub const fn end_span(self) -> Span {
        Span { begin: self.end, end: self.end }
    }

    /// The span as a range of `usize`, to index a text with.
    pub const fn range(self) -> Range<usize> {
        self.begin.0 as usize..self.end.0 as usize
    }

    /// The smallest span that has both.
    pub fn merge(self, other: Span) -> Span {
        Span { begin: self.begin.min(other.begin), end: self.end.max(other.end) }
    }

    /// The smallest span that has all of them, or the empty one at 0 if there is none.
    pub fn merge_all(spans: impl Iterator<Item = Span>) -> Span {
        spans.reduce(Span::merge).unwrap_or_default()
    }

    /// Whether the position is in the span or at one of its ends.
    pub fn contains(self, pos: Pos) -> bool {
        self.begin <= pos && pos <= self.end
    }

    /// Whether the spans have a position in common. Spans that touch do.
    pub fn intersects(self, other: Span) -> bool {
        self.contains(other.begin) || self.contains(other.end) || other.contains(self.begin)
    }
}

/// A node, and where it is in the text.
#[derive(Clone, Copy, Debug, PartialEq, Eq, PartialOrd, Ord, Hash)]
pub struct Spanned<T> {
    /// The node.
    pub node: T,
    /// Where it is.
    pub span: Span,
}

impl<T> Spanned<T> {
    /// What `f` makes of the node, at the same place.
    pub fn map<U>(self, f: impl FnOnce(T) -> U) -> Spanned<U> {
        Spanned { node: f(self.node), span: self.span }
    }

    /// A reference to the node, at the same place.
    pub fn as_ref(&self) -> Spanned<&T> {
        Spanned { node: &self.node, span: self.span }
    }
}

impl<T> Deref for Spanned<T> {
    type Target = T;

    fn deref(&self) -> &T {
        &self.node
    }
}

impl<T> DerefMut for Spanned<T> {
    fn deref_mut(&mut self) -> &mut T {
        &mut self.node
    }
}

/// A file: its name and its text. A clone shares both, also with other threads.
///
/// A position past the end of the text counts as its end, and one inside a character as that character's start. Lines
/// end with `\n` and are counted from 0.
#[derive(Clone)]
pub struct CodeMap(Arc<File>);

#[derive(PartialEq, Eq, Hash)]
struct File {
    name: String,
    source: String,
    /// Where each line begins.
    lines: Vec<usize>,
}

impl CodeMap {
    /// The file of this name with this text.
    pub fn new(filename: String, source: String) -> CodeMap {
        let breaks = source.bytes().enumerate().filter(|(_, byte)| *byte == b'\n');
        let lines = std::iter::once(0).chain(breaks.map(|(at, _)| at + 1)).collect();
        CodeMap(Arc::new(File { name: filename, source, lines }))
    }

    /// The name of the file.
    pub fn filename(&self) -> &str {
        &self.0.name
    }

    /// The whole text.
    pub fn source(&self) -> &str {
        &self.0.source
    }

    /// The span of the whole text.
    pub fn full_span(&self) -> Span {
        self.span_of(0..self.source().len())
    }

    /// The span in this file.
    pub fn file_span(&self, span: Span) -> FileSpan {
        FileSpan { file: self.clone(), span }
    }

    /// The text of a span.
    pub fn source_span(&self, span: Span) -> &str {
        let (begin, end) = (self.offset(span.begin), self.offset(span.end));
        self.source().get(begin..end).unwrap_or_default()
    }

    /// The line of a position.
    pub fn find_line(&self, pos: Pos) -> usize {
        self.line_at(self.offset(pos))
    }

    /// The span of a line with its `\n`, or the empty span at the end of the text if there is no such line.
    pub fn line_span(&self, line: usize) -> Span {
        self.line_span_opt(line).unwrap_or(self.full_span().end_span())
    }

    /// The span of a line with its `\n`, or none if there is no such line. What follows the last `\n` is a line, too,
    /// also if it is empty.
    pub fn line_span_opt(&self, line: usize) -> Option<Span> {
        let begin = *self.0.lines.get(line)?;
        let end = self.0.lines.get(line + 1).copied().unwrap_or(self.source().len());
        Some(self.span_of(begin..end))
    }

    /// The span of a line without its `\n` or `\r\n`.
    pub fn line_span_trim_newline(&self, line: usize) -> Span {
        let span = self.line_span(line);
        let text = self.source_span(span);
        let text = text.strip_suffix('\n').unwrap_or(text);
        let text = text.strip_suffix('\r').unwrap_or(text);
        let begin = self.offset(span.begin);
        self.span_of(begin..begin + text.len())
    }

    /// The text of a line without its `\n` or `\r\n`.
    pub fn source_line(&self, line: usize) -> &str {
        self.source_span(self.line_span_trim_newline(line))
    }

    /// The text of the line of a position, without its `\n` or `\r\n`.
    pub fn source_line_at_pos(&self, pos: Pos) -> &str {
        self.source_line(self.find_line(pos))
    }

    /// The lines and columns of a span's ends.
    pub fn resolve_span(&self, span: Span) -> ResolvedSpan {
        ResolvedSpan { begin: self.resolve(span.begin), end: self.resolve(span.end) }
    }

    fn resolve(&self, pos: Pos) -> ResolvedPos {
        let at = self.offset(pos);
        let line = self.line_at(at);
        let begin = self.0.lines.get(line).copied().unwrap_or_default();
        let before = self.source().get(begin..at).unwrap_or_default();
        ResolvedPos { line, column: before.chars().count() }
    }

    /// The line of an offset: how many lines but the first begin at it or before it.
    fn line_at(&self, offset: usize) -> usize {
        self.0.lines.partition_point(|begin| *begin <= offset).saturating_sub(1)
    }

    /// The offset of a position, moved to the start of a character of the text, or to its end.
    fn offset(&self, pos: Pos) -> usize {
        let text = self.source();
        let mut at = text.len().min(pos.0 as usize);
        while !text.is_char_boundary(at) {
            at -= 1;
        }
        at
    }

    fn span_of(&self, range: Range<usize>) -> Span {
        let pos = |at| Pos(u32::try_from(at).unwrap_or(u32::MAX));
        Span { begin: pos(range.start), end: pos(range.end) }
    }
}

impl PartialEq for CodeMap {
    /// Whether they have the same name and text.
    fn eq(&self, other: &CodeMap) -> bool {
        Arc::ptr_eq(&self.0, &other.0) || self.0 == other.0
    }
}

impl Eq for CodeMap {}

impl std::hash::Hash for CodeMap {
    fn hash<H: std::hash::Hasher>(&self, state: &mut H) {
        self.0.hash(state);
    }
}

impl fmt::Debug for CodeMap {
    fn fmt(&self, f: &mut fmt::Formatter<'_>) -> fmt::Result {
        f.debug_tuple("CodeMap").field(&self.filename()).finish()
    }
}

/// A span of a file. It prints as the file's name, `:`, and the lines and columns: `a.bzl:1:5-6`.
#[derive(Clone, Debug, PartialEq, Eq, Hash)]
pub struct FileSpan {
    /// The file.
    pub file: CodeMap,
    /// The span in it.
    pub span: Span,
}

impl FileSpan {
    /// The whole of a text in a file of this name.
    pub fn new(filename: String, source: String) -> FileSpan {
        let file = CodeMap::new(filename, source);
        let span = file.full_span();
        FileSpan { file, span }
    }

    /// The name of the file.
    pub fn filename(&self) -> &str {
        self.file.filename()
    }

    /// The text of the span.
    pub fn source_span(&self) -> &str {
        self.file.source_span(self.span)
    }

    /// The lines and columns of its ends.
    pub fn resolve_span(&self) -> ResolvedSpan {
        self.file.resolve_span(self.span)
    }

    /// The same without the file's text.
    pub fn resolve(&self) -> ResolvedFileSpan {
        ResolvedFileSpan { file: self.filename().to_owned(), span: self.resolve_span() }
    }
}

impl fmt::Display for FileSpan {
    fn fmt(&self, f: &mut fmt::Formatter<'_>) -> fmt::Result {
        write!(f, "{}:{}", self.filename(), self.resolve_span())
    }
}

/// A line and a column, both from 0, the column in characters. It prints with both from 1: `1:5`.
#[derive(Clone, Copy, Debug, Default, PartialEq, Eq, PartialOrd, Ord, Hash)]
pub struct ResolvedPos {
    /// The line, from 0.
    pub line: usize,
    /// The column, from 0, in characters.
    pub column: usize,
}

impl fmt::Display for ResolvedPos {
    fn fmt(&self, f: &mut fmt::Formatter<'_>) -> fmt::Result {
        write!(f, "{}:{}", self.line.saturating_add(1), self.column.saturating_add(1))
    }
}

/// The lines and columns of a span. It prints with both from 1: `1:5-6`, `1:5-2:3`, or `1:5` if it is empty.
#[derive(Clone, Copy, Debug, Default, PartialEq, Eq, PartialOrd, Ord, Hash)]
pub struct ResolvedSpan {
    /// Where it begins.
    pub begin: ResolvedPos,
    /// Where it ends.
    pub end: ResolvedPos,
}

impl ResolvedSpan {
    /// Whether the position is in the span or at one of its ends.
    pub fn contains(&self, pos: ResolvedPos) -> bool {
        self.begin <= pos && pos <= self.end
    }
}

impl fmt::Display for ResolvedSpan {
    fn fmt(&self, f: &mut fmt::Formatter<'_>) -> fmt::Result {
        let ResolvedSpan { begin, end } = self;
        if begin == end {
            write!(f, "{begin}")
        } else if begin.line == end.line {
            write!(f, "{begin}-{}", end.column.saturating_add(1))
        } else {
            write!(f, "{begin}-{end}")
        }
    }
}

/// A file's name with the lines and columns of a span. It prints as a [`FileSpan`] does.
#[derive(Clone, Debug, PartialEq, Eq, Hash)]
pub struct ResolvedFileSpan {
    /// The name of the file.
    pub file: String,
    /// The lines and columns.
    pub span: ResolvedSpan,
}

impl ResolvedFileSpan {
    /// The line in which it begins.
    pub fn begin_file_line(&self) -> ResolvedFileLine {
        ResolvedFileLine { file: self.file.clone(), line: self.span.begin.line }
    }
}

impl fmt::Display for ResolvedFileSpan {
    fn fmt(&self, f: &mut fmt::Formatter<'_>) -> fmt::Result {
        write!(f, "{}:{}", self.file, self.span)
    }
}

/// A file's name and a line. It prints with the line from 1: `a.bzl:1`.
#[derive(Clone, Debug, PartialEq, Eq, Hash)]
pub struct ResolvedFileLine {
    /// The name of the file.
    pub file: String,
    /// The line, from 0.
    pub line: usize,
}

impl fmt::Display for ResolvedFileLine {
    fn fmt(&self, f: &mut fmt::Formatter<'_>) -> fmt::Result {
        write!(f, "{}:{}", self.file, self.line.saturating_add(1))
    }
}

#[cfg(test)]
mod tests {
    use super::*;

    fn span(begin: u32, end: u32) -> Span {
        Span::new(Pos::new(begin), Pos::new(end))
    }

    #[test]
    fn columns_count_characters() {
        let map = CodeMap::new("a.bzl".to_owned(), "é = 😀x\r\ny\n".to_owned());
        assert_eq!(map.file_span(span(5, 9)).to_string(), "a.bzl:1:5-6");
        assert_eq!(map.resolve_span(span(9, 13)).to_string(), "1:6-2:2");
        assert_eq!(map.resolve_span(span(12, 12)).to_string(), "2:1");
        assert_eq!((map.source_line(0), map.source_line(1), map.source_line(2)), ("é = 😀x", "y", ""));
        assert_eq!(map.line_span_opt(0), Some(span(0, 12)));
        assert_eq!(map.source_line_at_pos(Pos::new(12)), "y");
        assert_eq!(map.file_span(span(12, 13)).resolve().begin_file_line().to_string(), "a.bzl:2");
    }

    #[test]
    fn positions_outside_are_moved_into_the_text() {
        let map = CodeMap::new(String::new(), "é\n".to_owned());
        assert_eq!(map.source_span(span(1, 2)), "é");
        assert_eq!(map.source_span(span(2, 1)), "");
        assert_eq!(map.resolve_span(span(1, u32::MAX)).to_string(), "1:1-2:1");
        assert_eq!((map.line_span_opt(2), map.line_span(2), map.source_line(9)), (None, span(3, 3), ""));
        assert_eq!(map.find_line(Pos::new(u32::MAX)), 1);
        assert_eq!(CodeMap::new(String::new(), String::new()).line_span(0), span(0, 0));
    }

    #[test]
    fn spans() {
        assert_eq!(span(1, 3).merge(span(5, 6)), span(1, 6));
        assert_eq!(Span::merge_all([span(4, 5), span(1, 2)].into_iter()), span(1, 5));
        assert_eq!(Span::merge_all(std::iter::empty()), span(0, 0));
        assert!(span(1, 3).intersects(span(3, 4)) && !span(1, 3).intersects(span(4, 5)));
        assert!(span(1, 9).intersects(span(3, 4)) && span(3, 4).intersects(span(1, 9)));
        assert_eq!((span(1, 3).len(), span(3, 1).len(), span(1, 3).end_span()), (2, 0, span(3, 3)));
    }
}
