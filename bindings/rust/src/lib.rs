//! The frame machine from Rust.
//!
//! `machine` calls the proved static library (`make library`). `plain` is a second implementation of the same
//! specification over the same four memories, with no code in common: the yardstick of the tests and of the bench. Both
//! have the same functions but for `look_text`, which gives a part of a memory in `plain` and a copy in `machine`.
//!
//! `places` tells where in a source a refusal or an end comes from, `replay` replays scripts of calls.
//!
//! A caller lends four memories. Every call takes memories of any length and any contents, and answers with a result or
//! with the number of a refusal; a refused call changes nothing.

// the blocks of Rust on the page of the language are tests
#[cfg(doctest)]
#[doc = include_str!("../../../docs/LANGUAGE.md")]
struct LanguagePage;

#[cfg(feature = "machine")]
pub mod machine;
pub mod places;
pub mod plain;
pub mod replay;

use std::fmt;

/// How many 32-bit words the program memory has.
pub const PROGRAM_WORDS: usize = 16_384;
/// How many 32-bit words the heap memory has.
pub const HEAP_WORDS: usize = 16_384;
/// How many bytes the literal memory has.
pub const LITERAL_BYTES: usize = 8_192;
/// How many bytes the text memory has.
pub const TEXT_BYTES: usize = 16_384;
/// The longest source that loads, in bytes.
pub const SOURCE_BYTES: usize = 16_384;
/// A buffer of so many bytes is never too short for write, where load made the memories, with any runs and collects since:
/// a text has less than twice the bytes of its source.
pub const TEXT_BUFFER: usize = 32_767;
/// How many makers a frame may have: 0 for loading, and the numbers of 512 instructions, from 1 on.
pub const MAKERS: usize = 513;

/// Why a call was refused: 1 to 12 by load, 20 by every other call, 21 and 22 by look, 23 by write.
#[derive(Clone, Copy, Debug, PartialEq, Eq, PartialOrd, Ord, Hash)]
pub struct Refusal(pub u32);

impl Refusal {
    /// What the number says, in the words of README's table and of `framed_message` in C.
    pub fn message(self) -> &'static str {
        match self.0 {
            1 => "a memory has another length",
            2 => "F or T is outside its range",
            3 => "the source is longer than 16,384 bytes",
            4 => "bytes that form no token",
            5 => "nesting above 16",
            6 => "the tokens are not one frame",
            7 => "path, operator or `!` outside code",
            8 => "a frame with a name twice or more than 16 slots",
            9 => "a count above its limit",
            10 => "`^` above the program frame",
            11 => "no Main frame with a code in start",
            12 => "F or more frames are written outside code",
            20 => "the memories are not whole",
            21 => "not a path",
            22 => "the path leads nowhere",
            23 => "the buffer is shorter than the text",
            _ => "no number of a refusal",
        }
    }
}

/// As `refused 6: the tokens are not one frame`.
impl fmt::Display for Refusal {
    fn fmt(&self, f: &mut fmt::Formatter<'_>) -> fmt::Result {
        write!(f, "refused {}: {}", self.0, self.message())
    }
}

impl std::error::Error for Refusal {}

/// The end that an instruction gives when no rule, or no room, lets it be made.
#[derive(Clone, Copy, Debug, PartialEq, Eq, Hash)]
pub enum End {
    NoRule = 31,
    DivisorZero = 32,
    IntegerRange = 33,
    TextLength = 34,
    SlotLimit = 35,
    FramesFull = 36,
    TextsFull = 37,
}

impl End {
    /// The end with a number from 31 to 37.
    pub fn from_number(number: u32) -> Option<End> {
        Some(match number {
            31 => End::NoRule,
            32 => End::DivisorZero,
            33 => End::IntegerRange,
            34 => End::TextLength,
            35 => End::SlotLimit,
            36 => End::FramesFull,
            37 => End::TextsFull,
            _ => return None,
        })
    }

    /// What the number says, in the words of README's table and of `framed_message` in C.
    pub fn message(self) -> &'static str {
        match self {
            End::NoRule => "no rule applies",
            End::DivisorZero => "divisor 0",
            End::IntegerRange => "integer result out of range",
            End::TextLength => "joined text above 64 bytes",
            End::SlotLimit => "a 17th slot",
            End::FramesFull => "no room for the frames that the instruction makes",
            End::TextsFull => "no room for its made texts",
        }
    }
}

/// As `end 32: divisor 0`.
impl fmt::Display for End {
    fn fmt(&self, f: &mut fmt::Formatter<'_>) -> fmt::Result {
        write!(f, "end {}: {}", *self as u32, self.message())
    }
}

impl std::error::Error for End {}

/// Why a run stopped.
#[derive(Clone, Copy, Debug, PartialEq, Eq, Hash)]
pub enum Stop {
    /// No instruction is left.
    Done,
    /// An end is marked, by this run or an earlier one.
    End(End),
    /// As many steps as the fuel were made.
    Fuel,
    /// The line of a show is longer than the space left in the buffer.
    Output,
}

/// As the last line of a printed run has it: `0`, a number from 31 to 37, `fuel` or `output`.
impl fmt::Display for Stop {
    fn fmt(&self, f: &mut fmt::Formatter<'_>) -> fmt::Result {
        match self {
            Stop::Done => f.write_str("0"),
            Stop::End(end) => write!(f, "{}", *end as u32),
            Stop::Fuel => f.write_str("fuel"),
            Stop::Output => f.write_str("output"),
        }
    }
}

/// What a run reports: its stop, the steps that it made and the bytes that it wrote.
#[derive(Clone, Copy, Debug, PartialEq, Eq, Hash)]
pub struct RunReport {
    pub stop: Stop,
    pub steps: u32,
    pub bytes: usize,
}

/// The frames and the made texts that self and program reach.
#[derive(Clone, Copy, Debug, PartialEq, Eq, Hash)]
pub struct Totals {
    pub frames: u32,
    pub texts: u32,
}

/// What look finds at the end of a path.
#[derive(Clone, Copy, Debug, PartialEq, Eq, Hash)]
pub enum Found {
    Integer(i32),
    Text,
    Code,
    /// With its maker: the number of the instruction that made it, counted from 1 by where each begins in the source; 0
    /// where it was made at loading. `places` has the place of instruction n at n - 1.
    Frame(u32),
}

/// The four memories that the calls are lent.
#[derive(Clone, PartialEq, Eq)]
pub struct Memories {
    pub program: Box<[u32]>,
    pub heap: Box<[u32]>,
    pub literals: Box<[u8]>,
    pub texts: Box<[u8]>,
}

impl Memories {
    /// Memories of the right lengths, cleared. Nothing is loaded yet: every call but load refuses them.
    pub fn new() -> Memories {
        Memories {
            program: vec![0; PROGRAM_WORDS].into(),
            heap: vec![0; HEAP_WORDS].into(),
            literals: vec![0; LITERAL_BYTES].into(),
            texts: vec![0; TEXT_BYTES].into(),
        }
    }
}

impl Default for Memories {
    fn default() -> Memories {
        Memories::new()
    }
}
