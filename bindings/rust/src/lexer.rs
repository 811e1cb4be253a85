//! What a token has for a value.
use std::fmt;

/// The value of an integer literal.
#[derive(Clone, Debug, PartialEq, Eq, Hash)]
pub enum TokenInt {
    /// A value of 32 bits.
    I32(i32),
    /// The source text of a literal whose value needs more, with the prefix of its base: `0x` and so on.
    BigInt(String),
}

impl fmt::Display for TokenInt {
    fn fmt(&self, f: &mut fmt::Formatter<'_>) -> fmt::Result {
        match self {
            TokenInt::I32(value) => write!(f, "{value}"),
            TokenInt::BigInt(source) => f.write_str(source),
        }
    }
}
