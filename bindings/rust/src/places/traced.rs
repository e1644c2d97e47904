//! What the next instruction of a model is about, and what it left: for a trace.
use crate::machine::Model;
use crate::plain::heap::{self, Heap, Value};
use crate::plain::layout::{self, entry, expression_kind, instruction_kind, Program};

/// What an instruction is about, as far as that stands before it is made.
#[derive(Clone, Copy, Debug, PartialEq, Eq)]
pub enum Next {
    Assign(Target),
    Show,
    /// With the number of the code.
    Jump(u32),
    /// With the number of the code where it jumps.
    Ifeq(Option<u32>),
}

/// What an assignment sets. A slot's frame is found before the step: what is stored may change where its path leads.
#[derive(Clone, Copy, Debug, PartialEq, Eq)]
pub struct Target(Place);

#[derive(Clone, Copy, Debug, PartialEq, Eq)]
enum Place {
    /// Self or program, by its heap word.
    Root(usize),
    /// A frame and the number of a name.
    Slot(u32, u32),
}

/// A value that was stored, a code by its number.
#[derive(Clone, Debug, PartialEq, Eq)]
pub enum Stored {
    Integer(i32),
    Text(Vec<u8>),
    Code(u32),
    Frame,
}

/// The number of the next instruction, and what it is about: none where that is not there, so that it will end. None at the
/// end of a code.
pub fn next(model: &Model) -> Option<(u32, Option<Next>)> {
    let (program, heap) = words(model)?;
    let instruction = heap[heap::POSITION].checked_sub(1)?;
    Some((instruction, State { program, heap }.next(instruction)))
}

/// The value that an assignment has stored.
pub fn stored(model: &Model, Target(place): Target) -> Option<Stored> {
    let (program, heap) = words(model)?;
    let at = match place {
        Place::Root(at) => at,
        Place::Slot(f, name) => heap::find_slot(heap, heap::frame(f), name)? + 1,
    };
    let bytes = |memory: &[u8], k, length: u32| memory[layout::text(k)..][..length as usize].to_vec();
    Some(match Value::read(heap, at) {
        Value::Integer(n) => Stored::Integer(n),
        Value::Literal(k) => Stored::Text(bytes(&model.memories().literals, k, program[layout::literal_length(k)])),
        Value::Made(k) => Stored::Text(bytes(&model.memories().texts, k, heap[heap::text(k)] - 1)),
        Value::Code(k) => Stored::Code(k),
        Value::Frame(_) => Stored::Frame,
    })
}

/// The words of a model, which are whole.
fn words(model: &Model) -> Option<(&Program, &Heap)> {
    let memories = model.memories();
    Some((memories.program[..].try_into().ok()?, memories.heap[..].try_into().ok()?))
}

struct State<'a> {
    program: &'a Program,
    heap: &'a Heap,
}

impl State<'_> {
    fn next(&self, instruction: u32) -> Option<Next> {
        let [kind, a, b, ..] = entry(self.program, layout::instruction(instruction));
        Some(match kind {
            instruction_kind::ASSIGN_SELF => Next::Assign(self.target(heap::SELF, a, b)?),
            instruction_kind::ASSIGN_PROGRAM => Next::Assign(self.target(heap::PROGRAM, a, b)?),
            instruction_kind::SHOW => Next::Show,
            instruction_kind::JUMP => Next::Jump(self.code(a)?),
            _ if self.base(a)?.truth() => Next::Ifeq(None),
            _ => Next::Ifeq(Some(self.code(b)?)),
        })
    }

    fn target(&self, root: usize, first: u32, count: u32) -> Option<Target> {
        let names = &self.program[layout::path_name(first)..][..count as usize];
        let Some((&name, walk)) = names.split_last() else {
            return Some(Target(Place::Root(root)));
        };
        match heap::fetch(self.heap, Value::read(self.heap, root), walk)? {
            Value::Frame(f) => Some(Target(Place::Slot(f, name))),
            _ => None,
        }
    }

    /// The value of an expression that is a base.
    fn base(&self, x: u32) -> Option<Value> {
        let [kind, a, b, ..] = entry(self.program, layout::expression(x));
        let root = match kind {
            expression_kind::INTEGER => return Some(Value::Integer(a as i32)),
            expression_kind::LITERAL => return Some(Value::Literal(a)),
            expression_kind::CODE => return Some(Value::Code(a)),
            expression_kind::FROM_SELF => heap::SELF,
            _ => heap::PROGRAM,
        };
        let names = &self.program[layout::path_name(a)..][..b as usize];
        heap::fetch(self.heap, Value::read(self.heap, root), names)
    }

    fn code(&self, x: u32) -> Option<u32> {
        match self.base(x)? {
            Value::Code(k) => Some(k),
            _ => None,
        }
    }
}
