//! A reader of the numbers and texts of docs/COMPACT.md.
use crate::codemap::{Pos, Span};

/// The bytes are not those of the format.
#[derive(Clone, Copy, Debug, PartialEq, Eq)]
pub(crate) struct Malformed;

pub(crate) type Result<T> = std::result::Result<T, Malformed>;

pub(crate) struct Bytes<'a> {
    rest: &'a [u8],
}

impl<'a> Bytes<'a> {
    pub(crate) fn new(bytes: &'a [u8]) -> Self {
        Bytes { rest: bytes }
    }

    /// Whether all bytes are read.
    pub(crate) fn is_at_end(&self) -> bool {
        self.rest.is_empty()
    }

    /// Reads a number of four bytes.
    #[inline]
    pub(crate) fn number(&mut self) -> Result<u32> {
        let (number, rest) = self.rest.split_first_chunk().ok_or(Malformed)?;
        self.rest = rest;
        Ok(u32::from_le_bytes(*number))
    }

    /// Reads a number of four bytes in two's complement.
    pub(crate) fn signed(&mut self) -> Result<i32> {
        Ok(i32::from_le_bytes(self.number()?.to_le_bytes()))
    }

    /// Reads 0 or 1.
    pub(crate) fn flag(&mut self) -> Result<bool> {
        match self.number()? {
            0 => Ok(false),
            1 => Ok(true),
            _ => Err(Malformed),
        }
    }

    /// Reads a count of eight bytes.
    #[inline]
    pub(crate) fn count(&mut self) -> Result<usize> {
        let (count, rest) = self.rest.split_first_chunk().ok_or(Malformed)?;
        self.rest = rest;
        usize::try_from(u64::from_le_bytes(*count)).map_err(|_| Malformed)
    }

    /// Reads a span.
    #[inline]
    pub(crate) fn span(&mut self) -> Result<Span> {
        let begin = self.number()?;
        let end = self.number()?;
        Ok(Span::new(Pos::new(begin), Pos::new(end)))
    }

    /// Reads a count and as many bytes.
    #[inline]
    pub(crate) fn bytes(&mut self) -> Result<&'a [u8]> {
        let count = self.count()?;
        let (bytes, rest) = self.rest.split_at_checked(count).ok_or(Malformed)?;
        self.rest = rest;
        Ok(bytes)
    }

    /// Reads a text.
    #[inline]
    pub(crate) fn text(&mut self) -> Result<&'a str> {
        std::str::from_utf8(self.bytes()?).map_err(|_| Malformed)
    }

    /// Reads a count and as many items, each of which has bytes.
    pub(crate) fn list<T>(&mut self, item: impl Fn(&mut Self) -> Result<T>) -> Result<Vec<T>> {
        let count = self.count()?;
        if count > self.rest.len() {
            return Err(Malformed);
        }
        (0..count).map(|_| item(self)).collect()
    }
}
