//! A plain implementation of the specification over the four memories: load, run, collect, look and its companion,
//! makers, and write.
//!
//! It follows the specification and docs/LAYOUT.md and shares no code with the proved machine. It was not written blind:
//! the definitions and the source of the proved crates were read before, for the words that load and a step write, so that
//! a misreading of the specification may be common to both. It keeps its state in the memories only, and tests at each
//! call that they are whole, as the proved machine does.
#![forbid(unsafe_code)]

pub(crate) mod collect;
mod equality;
mod framerun;
pub(crate) mod heap;
pub(crate) mod layout;
mod load;
mod look;
pub(crate) mod parse;
pub(crate) mod run;
pub(crate) mod token;
pub(crate) mod whole;
mod write;

pub use framerun::framerun;
pub use load::load;
pub use look::{look, look_text};
pub use write::write;

use crate::{Refusal, RunReport, Totals, MAKERS};
use heap::Heap;

/// The refusal of every call but load: the memories are not whole.
const NOT_WHOLE: Refusal = Refusal(20);

/// Runs for at most `fuel` steps. Shows are written to the front of `out`; nothing else of it is touched.
pub fn run(
    program: &[u32],
    heap: &mut [u32],
    literals: &[u8],
    texts: &mut [u8],
    fuel: u32,
    out: &mut [u8],
) -> Result<RunReport, Refusal> {
    let (program, literals) = whole::program(program, literals).ok_or(NOT_WHOLE)?;
    let (heap, texts) = whole::state_mut(program, heap, texts).ok_or(NOT_WHOLE)?;
    Ok(run::Machine::new(program, heap, literals, texts).run(fuel, out))
}

/// Afterwards exactly what self and program reach is in use; the totals are how much that is.
pub fn collect(
    program: &[u32],
    heap: &mut [u32],
    literals: &[u8],
    texts: &[u8],
) -> Result<Totals, Refusal> {
    let (program, _) = whole::program(program, literals).ok_or(NOT_WHOLE)?;
    whole::state(program, heap, texts).ok_or(NOT_WHOLE)?;
    let heap: &mut Heap = heap.try_into().map_err(|_| NOT_WHOLE)?;
    Ok(collect::collect(heap))
}

/// Counts the frames that self and program reach by their makers: `counts[n]` becomes how many of them the instruction of
/// number n made, from 1 on, and `counts[0]` how many were made at loading. Nothing else is written.
pub fn makers(
    program: &[u32],
    heap: &[u32],
    literals: &[u8],
    texts: &[u8],
    counts: &mut [u32; MAKERS],
) -> Result<(), Refusal> {
    let (program, _) = whole::program(program, literals).ok_or(NOT_WHOLE)?;
    let (heap, _) = whole::state(program, heap, texts).ok_or(NOT_WHOLE)?;
    collect::makers(heap, counts);
    Ok(())
}

/// Whether the memories are whole.
pub fn is_whole(program: &[u32], heap: &[u32], literals: &[u8], texts: &[u8]) -> bool {
    whole::program(program, literals)
        .is_some_and(|(program, _)| whole::state(program, heap, texts).is_some())
}
