//! The number that a call gives back, taken apart: an answer's value, or a refusal.

use std::error::Error;
use std::fmt::{self, Display, Formatter};

pub(crate) const OK: u8 = 0;
pub(crate) const NO_BLOCK: u8 = 20;
pub(crate) const PACKED_LEVELS: u64 = 8;

/// The codes, each with its number and its words.
macro_rules! codes {
    ($($(#[$about:meta])* $name:ident = $number:literal, $words:literal;)*) => {
        /// Why a call refused: the codes of `include/sheet.h`, which says what each call refuses, and in which order.
        #[derive(Clone, Copy, Debug, PartialEq, Eq, Hash)]
        #[non_exhaustive]
        pub enum Code {
            $($(#[$about])* $name,)*
            /// A number that is none of these. No call gives one.
            Other(u8),
        }

        impl Code {
            fn of(number: u8) -> Code {
                match number {
                    $($number => Code::$name,)*
                    other => Code::Other(other),
                }
            }

            /// The code's number in `include/sheet.h`.
            pub fn number(self) -> u8 {
                match self {
                    $(Code::$name => $number,)*
                    Code::Other(number) => number,
                }
            }
        }

        impl Display for Code {
            fn fmt(&self, to: &mut Formatter) -> fmt::Result {
                to.write_str(match self {
                    $(Code::$name => $words,)*
                    Code::Other(_) => "a code without a name",
                })
            }
        }
    };
}

codes! {
    /// The level is too high. Value 0; in a file 2, the place of its byte.
    BadLevel = 1, "the level is too high";
    /// A slice has a wrong length. Value 0: the table; 1: the raster, the distances or the ponds' numbers.
    BadLength = 2, "a slice has a wrong length";
    /// A node's type, father word or son words are wrong. Value: the node.
    BadNode = 3, "a node's type, father word or son words are wrong";
    /// A fork lies so deep that its sons would be smaller than a pixel. Value: the node, or the byte place in a file.
    TooDeep = 4, "a fork lies so deep that its sons would be smaller than a pixel";
    /// A fork has four sons that are leaves of one colour. Value: the node, or the byte place in a file.
    NeedlessFork = 5, "a fork has four sons that are leaves of one colour";
    /// The node asked for is not in the table. Value: its number.
    NoSuchNode = 6, "the node asked for is not in the table";
    /// There is no such direction, side or corner, or the corner is not on that side. Value: the wrong one.
    BadDirection = 7, "there is no such direction, side or corner, or the corner is not on that side";
    /// A pixel byte is above 1. Value: the first such place.
    BadPixel = 8, "a pixel is neither 0 nor 1";
    /// The slice to be written is too short. Value: the words, bytes or numbers that are needed.
    NoRoom = 9, "the slice to be written is too short";
    /// The ground place is out of range. Value, the first that fails: 0 east, 1 north, 2 step.
    BadGround = 11, "the ground place is out of range";
    /// A file has a wrong mark byte or a type above 2. Value: the byte place.
    BadRecord = 12, "a file has a wrong mark byte or type";
    /// A file ends where a byte is needed. Value: that byte's place.
    FileEnds = 13, "a file ends where a byte is needed";
    /// A file's node count is not the number of its node records, or bytes are left over. Value: the byte place.
    BadCount = 14, "a file's node count is wrong, or bytes are left over";
}

/// A call's refusal. Every slice that was lent to the call stands as it was.
///
/// ```
/// let refusal = sheet::check(8, &[]).unwrap_err();
/// assert_eq!(refusal, sheet::Refusal { code: sheet::Code::BadLevel, value: 0 });
/// assert_eq!(refusal.to_string(), "the level is too high (code 1, value 0)");
/// ```
#[derive(Clone, Copy, Debug, PartialEq, Eq, Hash)]
pub struct Refusal {
    /// Why.
    pub code: Code,
    /// Where, or how much would be needed: what the code says of it.
    pub value: u64,
}

impl Display for Refusal {
    fn fmt(&self, to: &mut Formatter) -> fmt::Result {
        write!(to, "{} (code {}, value {})", self.code, self.code.number(), self.value)
    }
}

impl Error for Refusal {}

/// A node with its level; its side is `1 << level` pixels.
#[derive(Clone, Copy, Debug, PartialEq, Eq, Hash)]
pub struct Found {
    /// The node's number.
    pub node: u32,
    /// The node's level.
    pub level: u32,
}

/// What a file held.
#[derive(Clone, Copy, Debug, PartialEq, Eq, Hash)]
pub struct Loaded {
    /// The node count: [`NODE_WORDS`](crate::NODE_WORDS) times as many words of the table are written.
    pub count: usize,
    /// The sheet's level.
    pub level: u32,
}

fn code_of(answer: u64) -> u8 {
    (answer & 255) as u8
}

pub(crate) fn value_of(answer: u64) -> Result<u64, Refusal> {
    let value = answer >> 8;
    match code_of(answer) {
        OK => Ok(value),
        number => Err(Refusal { code: Code::of(number), value }),
    }
}

pub(crate) fn count_of(answer: u64) -> Result<usize, Refusal> {
    Ok(value_of(answer)? as usize)
}

pub(crate) fn found_of(answer: u64) -> Result<Option<Found>, Refusal> {
    if code_of(answer) == NO_BLOCK {
        return Ok(None);
    }
    let value = value_of(answer)?;
    Ok(Some(Found { node: (value / PACKED_LEVELS) as u32, level: (value % PACKED_LEVELS) as u32 }))
}

pub(crate) fn loaded_of(answer: u64) -> Result<Loaded, Refusal> {
    let value = value_of(answer)?;
    Ok(Loaded { count: (value / PACKED_LEVELS) as usize, level: (value % PACKED_LEVELS) as u32 })
}
