//! The collector: mark what self and program reach, then take everything else out of use. And who made the frames that
//! are reached.
use super::heap::{self, Heap, Value};
use crate::{Totals, MAKERS};

struct Marks {
    frames: [bool; heap::FRAMES as usize],
    texts: [bool; heap::TEXTS as usize],
    /// Frames that are marked and whose slots are still to be visited.
    waiting: Vec<u32>,
}

impl Marks {
    fn visit(&mut self, value: Value) {
        match value {
            Value::Frame(f) if !self.frames[f as usize] => {
                self.frames[f as usize] = true;
                self.waiting.push(f);
            }
            Value::Made(k) => self.texts[k as usize] = true,
            _ => {}
        }
    }
}

/// Marks what self and program reach in whole memories.
fn mark(heap: &Heap) -> Marks {
    let mut marks = Marks {
        frames: [false; heap::FRAMES as usize],
        texts: [false; heap::TEXTS as usize],
        waiting: Vec::with_capacity(heap::FRAMES as usize),
    };
    marks.visit(Value::read(heap, heap::SELF));
    marks.visit(Value::read(heap, heap::PROGRAM));
    while let Some(f) = marks.waiting.pop() {
        let frame = heap::frame(f);
        for i in 0..heap[frame + heap::SLOT_COUNT] as usize {
            marks.visit(Value::read(heap, heap::slot(frame, i) + 1));
        }
    }
    marks
}

/// Collects over whole memories.
pub fn collect(heap: &mut Heap) -> Totals {
    let marks = mark(heap);
    for (f, marked) in (0..).zip(&marks.frames) {
        if !marked {
            heap[heap::frame(f)] = 0;
        }
    }
    for (k, marked) in (0..).zip(&marks.texts) {
        if !marked {
            heap[heap::text(k)] = 0;
        }
    }
    let count = |marks: &[bool]| marks.iter().filter(|&&marked| marked).count() as u32;
    Totals { frames: count(&marks.frames), texts: count(&marks.texts) }
}

/// How many of the frames that are reached each maker made, over whole memories.
pub fn makers(heap: &Heap, counts: &mut [u32; MAKERS]) {
    let marks = mark(heap);
    counts.fill(0);
    for (f, &marked) in (0..).zip(&marks.frames) {
        if marked {
            counts[heap[heap::frame(f) + heap::MAKER] as usize] += 1;
        }
    }
}
