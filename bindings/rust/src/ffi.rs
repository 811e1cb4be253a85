//! The call of the library.
use crate::error::Fault;

// Declared in include/starlark.h.
unsafe extern "C" {
    fn starlark_parse_limited(
        text: *const u8,
        text_len: usize,
        dialect: u32,
        format: u32,
        depth: u32,
        out: *mut u8,
        out_len: usize,
        len: *mut usize,
    ) -> u32;
}

const DONE: u32 = 0;
const TOO_SMALL: u32 = 1;
const NO_MEMORY: u32 = 2;

/// A format of a result.
#[derive(Clone, Copy, Debug)]
pub(crate) enum Format {
    /// That of docs/JSON.md.
    Json = 1,
    /// That of docs/COMPACT.md.
    Compact = 2,
}

impl Format {
    /// The first bytes of the error for a text that nests deeper than the limit.
    pub(crate) fn too_deep(self) -> &'static [u8] {
        match self {
            Format::Json => br#"{"version":1,"error":"Lexer","message":"TooDeep","#,
            Format::Compact => b"\x01\0\0\0\x03\0\0\0\x07\0\0\0\0\0\0\0TooDeep",
        }
    }

    /// The bytes for each byte of the text that few results exceed.
    fn room_for_byte(self) -> usize {
        match self {
            Format::Json => 40,
            Format::Compact => 20,
        }
    }
}

/// The largest size of the first buffer for a result.
const MOST_ROOM: usize = 1 << 30;

/// The library's result in a format for a text that may nest `depth` deep, in the dialect with this number.
pub(crate) fn answer(text: &str, dialect: u32, format: Format, depth: u32) -> Result<Vec<u8>, Fault> {
    // Few results are larger. Zeroed memory that is not written costs nothing.
    let mut room = text.len().saturating_mul(format.room_for_byte()).saturating_add(512).min(MOST_ROOM);
    loop {
        let mut out = vec![0; room];
        let mut len = 0;
        // SAFETY: the pointers and lengths are those of three Rust values that do not overlap and are initialised; the
        // library keeps none of them, writes within `out` and `len` alone, and asks nothing else of its caller.
        let status = unsafe {
            let (begin, room) = (out.as_mut_ptr(), out.len());
            starlark_parse_limited(text.as_ptr(), text.len(), dialect, format as u32, depth, begin, room, &mut len)
        };
        match status {
            DONE => {
                out.truncate(len);
                return Ok(out);
            }
            TOO_SMALL if room < len => room = len,
            NO_MEMORY => return Err(Fault::of_memory()),
            _ => return Err(Fault::of_library()),
        }
    }
}
