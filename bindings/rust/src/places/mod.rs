//! Where in a source a refusal or an end comes from, and in words why.
//!
//! The plain implementation finds the places: its reader says where the parts of a source stand, its machine which
//! operand of an instruction is at fault. A caller that prints a number takes it from the proved machine; tests hold
//! that the number here is the same for stored, generated and damaged sources.
#![forbid(unsafe_code)]

mod ended;
mod refused;
mod seen;
#[cfg(feature = "machine")]
mod traced;
mod words;

pub use ended::{ended, Ended};
pub(crate) use refused::no_token;
pub use refused::{refused, Refused};
#[cfg(feature = "machine")]
pub use traced::{next, stored, Next, Stored, Target};

use crate::plain::parse::parse_watched;
use crate::Refusal;
use seen::{Seen, Text};
use std::ops::Range;

/// A place as editors count it.
#[derive(Clone, Copy, Debug, PartialEq, Eq, PartialOrd, Ord, Hash)]
pub struct Place {
    /// From 1; a line ends at byte 10.
    pub line: usize,
    /// From 1, in bytes.
    pub column: usize,
}

/// The place of the byte `at`; of the end of the source where it has no such byte.
pub fn place(source: &[u8], at: usize) -> Place {
    let before = &source[..at.min(source.len())];
    let line_start = before.iter().rposition(|&byte| byte == b'\n').map_or(0, |end| end + 1);
    Place {
        line: 1 + before.iter().filter(|&&byte| byte == b'\n').count(),
        column: 1 + before.len() - line_start,
    }
}

/// The bytes of the parts of a source, by the numbers that load gives them: each by where it begins.
#[derive(Clone, Debug, Default, PartialEq, Eq)]
pub struct Places {
    /// From the first token of an instruction to its `;`.
    pub instructions: Vec<Range<usize>>,
    pub expressions: Vec<Range<usize>>,
    /// From the word `code` to its `}`.
    pub codes: Vec<Range<usize>>,
    /// For each instruction the path on the left of its `:=`.
    pub targets: Vec<Option<Range<usize>>>,
}

/// The places of a source that loads with this F.
pub fn places(source: &[u8], frames: u32) -> Result<Places, Refusal> {
    if let Some(refused) = refused::argument(source, frames, 0) {
        return Err(Refusal(refused.number));
    }
    let mut seen = Seen::default();
    parse_watched(source, frames, &mut seen)?;
    let text = Text::read(source).map_err(|_| Refusal(4))?;
    let bytes = |parts: &[Range<usize>]| parts.iter().map(|tokens| text.bytes(tokens)).collect();
    let instructions = seen.instructions();
    Ok(Places {
        expressions: bytes(&seen.expressions()),
        codes: bytes(&seen.codes()),
        targets: instructions.iter().map(|tokens| seen.target(tokens).map(|path| text.bytes(path))).collect(),
        instructions: bytes(&instructions),
    })
}
