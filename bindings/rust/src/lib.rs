//! A Starlark parser under the names of the crate `starlark_syntax`.
//!
//! A text is parsed by a library whose functions are proved in Rattle. This crate, which is not proved, calls it and
//! makes Rust types of its result. Module paths, names and signatures are those of the parser layer of the original, so
//! that a tool over that layer compiles with this crate; README.md lists what differs.
//!
//! ```
//! use starlark_syntax::syntax::ast::{Expr, Stmt};
//! use starlark_syntax::syntax::{AstModule, Dialect};
//!
//! let module = AstModule::parse("a.bzl", "load(\"m\", \"f\")\nx = f(1)\n".to_owned(), &Dialect::Standard)?;
//! let Stmt::Statements(statements) = &module.statement().node else { unreachable!("two statements") };
//! if let Stmt::Assign(assign) = &statements[1].node {
//!     assert_eq!(module.file_span(assign.rhs.span).to_string(), "a.bzl:2:5-9");
//!     assert!(matches!(assign.rhs.node, Expr::Call(..)));
//!     assert_eq!(assign.rhs.to_string(), "f(1)");
//! }
//! assert_eq!(module.loads()[0].symbols.get("f"), Some(&"f"));
//! # Ok::<(), starlark_syntax::Error>(())
//! ```
//!
//! # Depth
//!
//! A text that nests deeper than a limit is refused: [`DEFAULT_DEPTH`], or that of
//! [`AstModule::parse_limited`](syntax::AstModule::parse_limited). Within any limit a text is read on a stack that is
//! large enough, and its module is cloned and dropped on one.
//!
//! ```
//! use starlark_syntax::syntax::{AstModule, Dialect};
//!
//! let text = "[".repeat(20_000) + &"]".repeat(20_000);
//! let error = AstModule::parse("deep.bzl", text.clone(), &Dialect::Standard).unwrap_err();
//! assert_eq!(error.to_string(), "deep.bzl:1:501-502: TooDeep");
//! assert!(AstModule::parse_limited("deep.bzl", text, &Dialect::Standard, 20_000).is_ok());
//! ```
mod bytes;
pub mod codemap;
mod compact;
pub mod error;
mod ffi;
mod heap;
mod kind;
pub mod lexer;
mod reading;
mod stack;
pub mod syntax;

pub use crate::error::{Error, ErrorKind, Result};

use crate::syntax::Dialect;

/// How deep a text may nest if no other limit is given: how many delimiters, blocks, operators, dots and keywords are
/// around a token, or beside it up to the next comma or the end of the line. Hand-written files nest less than 100
/// deep.
pub const DEFAULT_DEPTH: u32 = 500;

/// Parses a text and returns its module, or its error, as JSON, by the schema of the repository's `docs/JSON.md`. The
/// name of the file in it is `input`. The original does not have this function.
///
/// # Errors
///
/// [`ErrorKind::Memory`] if an allocation of the library fails.
pub fn parse_to_json(text: &str, dialect: &Dialect) -> Result<String> {
    parse_to_json_limited(text, dialect, DEFAULT_DEPTH)
}

/// The same for a text that nests no deeper than `depth`.
///
/// # Errors
///
/// [`ErrorKind::Memory`] if an allocation of the library fails, or if a thread with a large enough stack cannot be
/// started.
pub fn parse_to_json_limited(text: &str, dialect: &Dialect, depth: u32) -> Result<String> {
    Ok(reading::json(text, dialect, depth)?)
}
