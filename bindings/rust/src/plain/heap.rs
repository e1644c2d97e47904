//! The heap words of docs/LAYOUT.md.
use crate::HEAP_WORDS;

pub type Heap = [u32; HEAP_WORDS];

pub const SELF: usize = 0;
pub const PROGRAM: usize = 2;
pub const POSITION: usize = 4;
pub const END_MARK: usize = 5;

pub const FRAMES: u32 = 256;
pub const TEXTS: u32 = 256;

/// The words of frame f: whether it is in use, how many slots it has, its maker, and the slots.
pub const fn frame(f: u32) -> usize {
    128 + 51 * f as usize
}

pub const SLOT_COUNT: usize = 1;
/// 1 + the instruction whose step made the frame; 0 where it was made at loading.
pub const MAKER: usize = 2;

/// Slot i of the frame at this word: name, tag and number.
pub const fn slot(frame: usize, i: usize) -> usize {
    frame + 3 + 3 * i
}

/// Made text k: 0, or 1 + its length.
pub const fn text(k: u32) -> usize {
    13_184 + k as usize
}

/// A value, by tag and number.
#[derive(Clone, Copy, Debug, PartialEq, Eq)]
pub enum Value {
    Integer(i32),
    Literal(u32),
    Made(u32),
    Code(u32),
    Frame(u32),
}

impl Value {
    /// The value at a word of whole memories.
    pub fn read(heap: &Heap, at: usize) -> Value {
        let number = heap[at + 1];
        match heap[at] {
            0 => Value::Integer(number as i32),
            1 => Value::Literal(number),
            2 => Value::Made(number),
            3 => Value::Code(number),
            _ => Value::Frame(number),
        }
    }

    pub fn write(self, heap: &mut Heap, at: usize) {
        let (tag, number) = match self {
            Value::Integer(n) => (0, n as u32),
            Value::Literal(k) => (1, k),
            Value::Made(k) => (2, k),
            Value::Code(k) => (3, k),
            Value::Frame(f) => (4, f),
        };
        heap[at] = tag;
        heap[at + 1] = number;
    }

    /// All but integer 0 are true.
    pub fn truth(self) -> bool {
        self != Value::Integer(0)
    }
}

/// The slots of the frame at this word, each a name, a tag and a number.
pub fn slots(heap: &Heap, frame: usize) -> &[u32] {
    let count = heap[frame + SLOT_COUNT] as usize;
    &heap[slot(frame, 0)..slot(frame, count)]
}

/// The word of the slot with this name.
pub fn find_slot(heap: &Heap, frame: usize, name: u32) -> Option<usize> {
    let i = slots(heap, frame).chunks_exact(3).position(|slot| slot[0] == name)?;
    Some(slot(frame, i))
}

/// Adds a slot behind the others; there is room for it.
pub fn push_slot(heap: &mut Heap, frame: usize, name: u32, value: Value) {
    let count = heap[frame + SLOT_COUNT];
    let at = slot(frame, count as usize);
    heap[at] = name;
    value.write(heap, at + 1);
    heap[frame + SLOT_COUNT] = count + 1;
}

/// Takes frame f into use, without slots, for a maker.
pub fn take_frame(heap: &mut Heap, f: u32, maker: u32) {
    heap[frame(f)] = 1;
    heap[frame(f) + SLOT_COUNT] = 0;
    heap[frame(f) + MAKER] = maker;
}

/// Fetch: the value along these names from a root.
pub fn fetch(heap: &Heap, root: Value, names: &[u32]) -> Option<Value> {
    names.iter().try_fold(root, |value, &name| match value {
        Value::Frame(f) => find_slot(heap, frame(f), name).map(|at| Value::read(heap, at + 1)),
        _ => None,
    })
}
