//! Parsing: the call of the library, and the reading of its result.
//!
//! The call recurses as deep as the text nests, which a limit bounds. A text that nests no deeper than [`LOW`] is
//! parsed on the stack of the calling thread. A text that nests deeper within the limit is parsed again, on a stack
//! of its own.
use crate::compact::{self, Module};
use crate::error::Fault;
use crate::ffi::{self, Format};
use crate::stack::{self, LOW};
use crate::syntax::Dialect;

/// The module of a text that nests no deeper than `depth`, with the limit with which it was parsed, or the error.
pub(crate) fn module(text: &str, dialect: &Dialect, depth: u32) -> Result<(Module, u32), Fault> {
    answer(text, dialect, Format::Compact, depth, |answer| {
        compact::answer(&answer).unwrap_or_else(|_| Err(Fault::of_library()))
    })
}

/// The same as JSON.
pub(crate) fn json(text: &str, dialect: &Dialect, depth: u32) -> Result<String, Fault> {
    let made = |answer| String::from_utf8(answer).map_err(|_| Fault::of_library());
    answer(text, dialect, Format::Json, depth, made).map(|(json, _)| json)
}

/// What `made` makes of the library's result, with the limit with which the text was parsed.
fn answer<T: Send>(
    text: &str,
    dialect: &Dialect,
    format: Format,
    depth: u32,
    make: impl Fn(Vec<u8>) -> Result<T, Fault> + Sync,
) -> Result<(T, u32), Fault> {
    let within = |limit| ffi::answer(text, dialect.sum(), format, limit);
    let low = within(depth.min(LOW))?;
    if depth <= LOW || !low.starts_with(format.too_deep()) {
        return Ok((make(low)?, LOW));
    }
    // A level has at least one byte.
    let levels = usize::try_from(depth).unwrap_or(usize::MAX).min(text.len());
    let made = stack::with_levels(levels, || make(within(depth)?));
    Ok((made.unwrap_or_else(|_| Err(Fault::of_memory()))?, depth))
}
