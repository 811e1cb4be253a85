//! Why a text has no tree.
use crate::codemap::{CodeMap, FileSpan, Span};
use std::fmt;

/// The result of calls of this crate.
pub type Result<T, E = Error> = std::result::Result<T, E>;

/// The kind of an error.
#[derive(Clone, Copy, Debug, PartialEq, Eq, Hash)]
#[non_exhaustive]
pub enum ErrorKind {
    /// The text has more bytes than a `u32` counts.
    TextTooLong,
    /// An allocation of the library failed.
    Memory,
    /// A character or a literal that is not a token.
    Lexer,
    /// A token that cannot continue any program.
    UnexpectedToken,
    /// The text ends before the program is complete.
    UnexpectedEnd,
    /// A rule of the grammar that is more than tokens.
    Grammar,
    /// The order of a call's arguments.
    Call,
    /// The order of parameters, or a name twice among them.
    Params,
    /// A type annotation that is not a type.
    TypeExpr,
    /// A part of Starlark that is off in the dialect.
    Dialect,
    /// A statement at a position where it is not allowed.
    Place,
    /// The file could not be read.
    Io,
    /// The library that is linked is of another version than this crate.
    Library,
}

/// Why a text has no tree, and where. It prints as one line: `a.bzl:1:5-6: Parse error: unexpected token`.
#[derive(Clone, PartialEq, Eq)]
pub struct Error(Box<Fault<FileSpan>>);

impl Error {
    /// Its kind.
    pub fn kind(&self) -> ErrorKind {
        self.0.kind
    }

    /// Its position in the file, if it has one.
    pub fn span(&self) -> Option<&FileSpan> {
        self.0.span.as_ref()
    }

    /// The message, without the position.
    pub fn message(&self) -> &str {
        &self.0.message
    }

    /// The message without the position, as a value that prints.
    pub fn without_diagnostic(&self) -> impl fmt::Display + '_ {
        self.message()
    }

    /// Prints the error to standard error.
    pub fn eprint(&self) {
        eprintln!("{self}");
    }
}

impl fmt::Display for Error {
    fn fmt(&self, f: &mut fmt::Formatter<'_>) -> fmt::Result {
        if let Some(span) = self.span() {
            write!(f, "{span}: ")?;
        }
        f.write_str(self.message())
    }
}

impl fmt::Debug for Error {
    /// The same line, since `main` prints an error so.
    fn fmt(&self, f: &mut fmt::Formatter<'_>) -> fmt::Result {
        fmt::Display::fmt(self, f)
    }
}

impl std::error::Error for Error {}

impl From<Fault> for Error {
    /// A fault without a position.
    fn from(fault: Fault) -> Error {
        let Fault { kind, message, .. } = fault;
        Error(Box::new(Fault { kind, message, span: None }))
    }
}

/// An error with its span in the text, or in the file.
#[derive(Clone, Debug, PartialEq, Eq)]
pub(crate) struct Fault<S = Span> {
    pub(crate) kind: ErrorKind,
    pub(crate) message: String,
    pub(crate) span: Option<S>,
}

impl Fault {
    pub(crate) fn of_memory() -> Fault {
        Fault { kind: ErrorKind::Memory, message: "out of memory".to_owned(), span: None }
    }

    pub(crate) fn of_library() -> Fault {
        Fault { kind: ErrorKind::Library, message: "the library is of another version".to_owned(), span: None }
    }

    pub(crate) fn of_reading(message: String) -> Fault {
        Fault { kind: ErrorKind::Io, message, span: None }
    }

    /// The error that this is in a file.
    pub(crate) fn in_file(self, file: &CodeMap) -> Error {
        let Fault { kind, message, span } = self;
        Error(Box::new(Fault { kind, message, span: span.map(|span| file.file_span(span)) }))
    }
}
