//! The proved machine: safe wrappers over the static library of the crate `framed_c` (`include/framed.h`).
//!
//! The library has no precondition beyond what Rust's references give: slices of any lengths and contents, of which those
//! that are written overlap no other.
use crate::{End, Found, Memories, Refusal, RunReport, Stop, Totals, MAKERS, TEXT_BUFFER};

mod sys {
    extern "C" {
        pub fn framed_load(
            source: *const u8,
            source_length: usize,
            frames: u32,
            texts: u32,
            program: *mut u32,
            program_length: usize,
            heap: *mut u32,
            heap_length: usize,
            literals: *mut u8,
            literals_length: usize,
            text_bytes: *mut u8,
            text_length: usize,
        ) -> u32;

        pub fn framed_run(
            program: *const u32,
            program_length: usize,
            heap: *mut u32,
            heap_length: usize,
            literals: *const u8,
            literals_length: usize,
            text_bytes: *mut u8,
            text_length: usize,
            fuel: u32,
            out: *mut u8,
            out_length: usize,
            steps: *mut u32,
            bytes: *mut usize,
        ) -> u32;

        pub fn framed_collect(
            program: *const u32,
            program_length: usize,
            heap: *mut u32,
            heap_length: usize,
            literals: *const u8,
            literals_length: usize,
            text_bytes: *const u8,
            text_length: usize,
            frames: *mut u32,
            texts: *mut u32,
        ) -> u32;

        pub fn framed_look(
            program: *const u32,
            program_length: usize,
            heap: *const u32,
            heap_length: usize,
            literals: *const u8,
            literals_length: usize,
            text_bytes: *const u8,
            text_length: usize,
            path: *const u8,
            path_length: usize,
            number: *mut i32,
            maker: *mut u32,
        ) -> u32;

        pub fn framed_look_text(
            program: *const u32,
            program_length: usize,
            heap: *const u32,
            heap_length: usize,
            literals: *const u8,
            literals_length: usize,
            text_bytes: *const u8,
            text_length: usize,
            path: *const u8,
            path_length: usize,
            out: *mut u8,
            out_length: usize,
        ) -> usize;

        pub fn framed_makers(
            program: *const u32,
            program_length: usize,
            heap: *const u32,
            heap_length: usize,
            literals: *const u8,
            literals_length: usize,
            text_bytes: *const u8,
            text_length: usize,
            counts: *mut u32,
        ) -> u32;

        pub fn framed_write(
            program: *const u32,
            program_length: usize,
            heap: *const u32,
            heap_length: usize,
            literals: *const u8,
            literals_length: usize,
            text_bytes: *const u8,
            text_length: usize,
            out: *mut u8,
            out_length: usize,
            length: *mut usize,
        ) -> u32;
    }
}

/// Loads a source with the limits F (`frames`) and T (`texts`): the memories then hold its program and its start.
pub fn load(
    source: &[u8],
    frames: u32,
    texts: u32,
    program: &mut [u32],
    heap: &mut [u32],
    literals: &mut [u8],
    text_bytes: &mut [u8],
) -> Result<(), Refusal> {
    // SAFETY: each pointer and length come from one slice, and the borrows keep them apart
    let number = unsafe {
        sys::framed_load(
            source.as_ptr(),
            source.len(),
            frames,
            texts,
            program.as_mut_ptr(),
            program.len(),
            heap.as_mut_ptr(),
            heap.len(),
            literals.as_mut_ptr(),
            literals.len(),
            text_bytes.as_mut_ptr(),
            text_bytes.len(),
        )
    };
    if number == 0 {
        Ok(())
    } else {
        Err(Refusal(number))
    }
}

/// Runs for at most `fuel` steps. Shows are written to the front of `out`; nothing else of it is touched.
pub fn run(
    program: &[u32],
    heap: &mut [u32],
    literals: &[u8],
    texts: &mut [u8],
    fuel: u32,
    out: &mut [u8],
) -> Result<RunReport, Refusal> {
    let mut steps = 0;
    let mut bytes = 0;
    // SAFETY: as in `load`
    let number = unsafe {
        sys::framed_run(
            program.as_ptr(),
            program.len(),
            heap.as_mut_ptr(),
            heap.len(),
            literals.as_ptr(),
            literals.len(),
            texts.as_mut_ptr(),
            texts.len(),
            fuel,
            out.as_mut_ptr(),
            out.len(),
            &mut steps,
            &mut bytes,
        )
    };
    let stop = match number {
        0 => Stop::Done,
        1 => Stop::Fuel,
        2 => Stop::Output,
        _ => Stop::End(End::from_number(number).ok_or(Refusal(number))?),
    };
    Ok(RunReport { stop, steps, bytes })
}

/// Afterwards exactly what self and program reach is in use; the totals are how much that is.
pub fn collect(
    program: &[u32],
    heap: &mut [u32],
    literals: &[u8],
    texts: &[u8],
) -> Result<Totals, Refusal> {
    let mut totals = Totals { frames: 0, texts: 0 };
    // SAFETY: as in `load`
    let number = unsafe {
        sys::framed_collect(
            program.as_ptr(),
            program.len(),
            heap.as_mut_ptr(),
            heap.len(),
            literals.as_ptr(),
            literals.len(),
            texts.as_ptr(),
            texts.len(),
            &mut totals.frames,
            &mut totals.texts,
        )
    };
    if number == 0 {
        Ok(totals)
    } else {
        Err(Refusal(number))
    }
}

/// What stands at the end of a path, `self` or one `^` with names.
pub fn look(
    program: &[u32],
    heap: &[u32],
    literals: &[u8],
    texts: &[u8],
    path: &[u8],
) -> Result<Found, Refusal> {
    let mut integer = 0;
    let mut maker = 0;
    // SAFETY: as in `load`
    let number = unsafe {
        sys::framed_look(
            program.as_ptr(),
            program.len(),
            heap.as_ptr(),
            heap.len(),
            literals.as_ptr(),
            literals.len(),
            texts.as_ptr(),
            texts.len(),
            path.as_ptr(),
            path.len(),
            &mut integer,
            &mut maker,
        )
    };
    match number {
        1 => Ok(Found::Integer(integer)),
        2 => Ok(Found::Text),
        3 => Ok(Found::Code),
        4 => Ok(Found::Frame(maker)),
        _ => Err(Refusal(number)),
    }
}

/// The bytes of the text at the end of a path; none for another kind or a refusal.
pub fn look_text(program: &[u32], heap: &[u32], literals: &[u8], texts: &[u8], path: &[u8]) -> Vec<u8> {
    let mut out = [0; 64];
    // SAFETY: as in `load`
    let length = unsafe {
        sys::framed_look_text(
            program.as_ptr(),
            program.len(),
            heap.as_ptr(),
            heap.len(),
            literals.as_ptr(),
            literals.len(),
            texts.as_ptr(),
            texts.len(),
            path.as_ptr(),
            path.len(),
            out.as_mut_ptr(),
            out.len(),
        )
    };
    out[..length].to_vec()
}

/// Counts the frames that self and program reach by their makers: `counts[n]` becomes how many of them the instruction of
/// number n made, from 1 on, and `counts[0]` how many were made at loading. Nothing else is written.
pub fn makers(
    program: &[u32],
    heap: &[u32],
    literals: &[u8],
    texts: &[u8],
    counts: &mut [u32; MAKERS],
) -> Result<(), Refusal> {
    // SAFETY: as in `load`; the library writes at most so many counts
    let number = unsafe {
        sys::framed_makers(
            program.as_ptr(),
            program.len(),
            heap.as_ptr(),
            heap.len(),
            literals.as_ptr(),
            literals.len(),
            texts.as_ptr(),
            texts.len(),
            counts.as_mut_ptr(),
        )
    };
    if number == 0 {
        Ok(())
    } else {
        Err(Refusal(number))
    }
}

/// Writes the program as Framed text to the front of `out` and gives the length of the text; nothing else of `out` is
/// touched. No run and no collect changes the text. Refused: 23 where `out` is shorter than the text.
pub fn write(
    program: &[u32],
    heap: &[u32],
    literals: &[u8],
    texts: &[u8],
    out: &mut [u8],
) -> Result<usize, Refusal> {
    let mut length = 0;
    // SAFETY: as in `load`
    let number = unsafe {
        sys::framed_write(
            program.as_ptr(),
            program.len(),
            heap.as_ptr(),
            heap.len(),
            literals.as_ptr(),
            literals.len(),
            texts.as_ptr(),
            texts.len(),
            out.as_mut_ptr(),
            out.len(),
            &mut length,
        )
    };
    if number == 0 {
        Ok(length)
    } else {
        Err(Refusal(number))
    }
}

/// A loaded program with its memories. Nobody else writes them, so that no run and no collect is refused. A clone is a saved
/// state: it runs on from where the model stood.
#[derive(Clone, PartialEq, Eq)]
pub struct Model {
    memories: Memories,
}

impl Model {
    /// A source at its start, with the limits F (`frames`, 3 to 256) and T (`texts`, 0 to 256).
    pub fn load(source: &[u8], frames: u32, texts: u32) -> Result<Model, Refusal> {
        let mut m = Memories::new();
        load(source, frames, texts, &mut m.program, &mut m.heap, &mut m.literals, &mut m.texts)?;
        Ok(Model { memories: m })
    }

    /// Runs for at most `fuel` steps. Shows are written to the front of `out`.
    pub fn run(&mut self, fuel: u32, out: &mut [u8]) -> RunReport {
        let m = &mut self.memories;
        run(&m.program, &mut m.heap, &m.literals, &mut m.texts, fuel, out).expect("whole memories")
    }

    /// Afterwards exactly what self and program reach is in use.
    pub fn collect(&mut self) -> Totals {
        let m = &mut self.memories;
        collect(&m.program, &mut m.heap, &m.literals, &m.texts).expect("whole memories")
    }

    /// What stands at the end of a path, as `model.look("self.faults")`.
    pub fn look(&self, path: impl AsRef<[u8]>) -> Result<Found, Refusal> {
        let m = &self.memories;
        look(&m.program, &m.heap, &m.literals, &m.texts, path.as_ref())
    }

    /// The bytes of the text at the end of a path; none for another kind or a refusal.
    pub fn look_text(&self, path: impl AsRef<[u8]>) -> Vec<u8> {
        let m = &self.memories;
        look_text(&m.program, &m.heap, &m.literals, &m.texts, path.as_ref())
    }

    /// How many of the frames that self and program reach each instruction made, by its number from 1 on as
    /// [`Found::Frame`] has it; at 0 those that were made at loading.
    pub fn makers(&self) -> [u32; MAKERS] {
        let m = &self.memories;
        let mut counts = [0; MAKERS];
        makers(&m.program, &m.heap, &m.literals, &m.texts, &mut counts).expect("whole memories");
        counts
    }

    /// The program as Framed text, on one line: loaded with the same limits it is the same program, as long as it has no
    /// more than [`SOURCE_BYTES`](crate::SOURCE_BYTES) bytes. It is that of the source, whatever was run since. Never refused
    /// for a program that was loaded; memories that no load made may have a text above [`TEXT_BUFFER`] bytes (23).
    pub fn text(&self) -> Result<Vec<u8>, Refusal> {
        let mut text = vec![0; TEXT_BUFFER];
        let length = self.write(&mut text)?;
        text.truncate(length);
        Ok(text)
    }

    /// The same into a buffer: writes the text to the front of `out` and gives its length. Refused where `out` is shorter
    /// (23), and then nothing is written.
    pub fn write(&self, out: &mut [u8]) -> Result<usize, Refusal> {
        let m = &self.memories;
        write(&m.program, &m.heap, &m.literals, &m.texts, out)
    }

    /// A model of memories that were saved. Where they are not whole, they come back with the refusal (20).
    pub fn from_memories(memories: Memories) -> Result<Model, (Refusal, Memories)> {
        let m = &memories;
        // a look tests the memories before it reads the path
        match look(&m.program, &m.heap, &m.literals, &m.texts, b"self") {
            Err(Refusal(20)) => Err((Refusal(20), memories)),
            _ => Ok(Model { memories }),
        }
    }

    pub fn into_memories(self) -> Memories {
        self.memories
    }

    /// The four memories, to be saved or compared.
    pub fn memories(&self) -> &Memories {
        &self.memories
    }
}
