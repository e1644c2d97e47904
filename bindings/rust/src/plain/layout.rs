//! The program words of docs/LAYOUT.md.
use super::token::Operator;
use crate::{LITERAL_BYTES, PROGRAM_WORDS, TEXT_BYTES};

pub type Program = [u32; PROGRAM_WORDS];
pub type Literals = [u8; LITERAL_BYTES];
pub type Texts = [u8; TEXT_BYTES];

// header
pub const FRAME_LIMIT: usize = 0;
pub const TEXT_LIMIT: usize = 1;
pub const NAMES: usize = 2;
pub const LITERALS: usize = 3;
pub const EXPRESSIONS: usize = 4;
pub const INSTRUCTIONS: usize = 5;
pub const CODES: usize = 6;
pub const PATH_NAMES: usize = 7;
pub const PROGRAM_SLOTS: usize = 8;
pub const START: usize = 9;

// what the counts in the header are limited to
pub const MOST_FRAMES: u32 = 256;
pub const MOST_TEXTS: u32 = 256;
pub const MOST_NAMES: u32 = 128;
pub const MOST_LITERALS: u32 = 128;
pub const MOST_EXPRESSIONS: u32 = 1_024;
pub const MOST_INSTRUCTIONS: u32 = 512;
pub const MOST_CODES: u32 = 128;
pub const MOST_PATH_NAMES: u32 = 2_048;
pub const MOST_SLOTS: usize = 16;

/// Name k: its length, then its bytes, one to a word.
pub const fn name(k: u32) -> usize {
    64 + 17 * k as usize
}

/// The length of literal k.
pub const fn literal_length(k: u32) -> usize {
    2_240 + k as usize
}

/// Code k: 0, or 1 + its first instruction.
pub const fn code(k: u32) -> usize {
    2_368 + k as usize
}

/// Path name j.
pub const fn path_name(j: u32) -> usize {
    2_496 + j as usize
}

/// The five words of instruction i.
pub const fn instruction(i: u32) -> usize {
    4_544 + 5 * i as usize
}

/// The five words of expression x.
pub const fn expression(x: u32) -> usize {
    7_104 + 5 * x as usize
}

/// Where the bytes of literal or made text k begin in their memory.
pub const fn text(k: u32) -> usize {
    64 * k as usize
}

/// Instruction kinds.
pub mod instruction_kind {
    pub const ASSIGN_SELF: u32 = 0;
    pub const ASSIGN_PROGRAM: u32 = 1;
    pub const SHOW: u32 = 2;
    pub const JUMP: u32 = 3;
    pub const IFEQ: u32 = 4;
}

/// Expression kinds. From `OPERATORS` on they are the operators.
pub mod expression_kind {
    pub const INTEGER: u32 = 0;
    pub const LITERAL: u32 = 1;
    pub const FROM_SELF: u32 = 2;
    pub const FROM_PROGRAM: u32 = 3;
    pub const CODE: u32 = 4;
    pub const FRAME: u32 = 5;
    pub const NOT: u32 = 6;
    pub const OPERATORS: u32 = 7;
    pub const END: u32 = 16;
}

const OPERATORS: [Operator; 9] = [
    Operator::Plus,
    Operator::Minus,
    Operator::Times,
    Operator::Over,
    Operator::Less,
    Operator::Join,
    Operator::Equal,
    Operator::And,
    Operator::Or,
];

/// The operator of an expression kind from 7 to 15.
pub fn operator(kind: u32) -> Operator {
    OPERATORS[(kind - expression_kind::OPERATORS) as usize]
}

pub const JOIN: u32 = expression_kind::OPERATORS + Operator::Join as u32;

/// The words of an instruction or expression entry.
pub fn entry(program: &Program, at: usize) -> [u32; 5] {
    [program[at], program[at + 1], program[at + 2], program[at + 3], program[at + 4]]
}

/// The place that a link of an entry leads to: 0 for none, else 1 + the number of another entry.
pub fn after(entry: u32, distance: u32) -> u32 {
    if distance == 0 {
        0
    } else {
        1 + entry + distance
    }
}

/// The names of a path.
pub fn path(program: &Program, first: u32, count: u32) -> &[u32] {
    &program[path_name(first)..][..count as usize]
}

/// The bytes of literal k.
pub fn literal<'a>(program: &Program, literals: &'a Literals, k: u32) -> &'a [u8] {
    &literals[text(k)..][..program[literal_length(k)] as usize]
}
