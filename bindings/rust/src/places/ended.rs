//! Which end an instruction gives, and which of its operands is at fault.
use super::words::{counted, kind, quoted, short};
use super::Places;
use crate::plain::collect::collect;
use crate::plain::heap::{self, Heap, Value};
use crate::plain::layout::{self, entry, expression_kind, instruction_kind, Program};
use crate::plain::run::Machine;
use crate::plain::token::{Operator, Token, Tokens, STRING_BYTES};
use crate::plain::whole;
use crate::{End, Memories, Totals};
use std::ops::Range;

/// The end that an instruction gives.
#[derive(Clone, Debug, PartialEq, Eq)]
pub struct Ended {
    pub number: u32,
    pub instruction: u32,
    /// The bytes of the operand, the operation or the target at fault; none for 36 and 37.
    pub operand: Option<Range<usize>>,
    /// In words what is wrong with it.
    pub detail: String,
}

/// The end that the instruction gives at which the memories stand, marked or not. None where they are at the end of a
/// code or not whole, or where the instruction can be made. Places and source are those of the program that was loaded;
/// of others only the number and the instruction are right.
pub fn ended(memories: &Memories, places: &Places, source: &[u8]) -> Option<Ended> {
    let (program, literals) = whole::program(&memories.program, &memories.literals)?;
    let (heap, _) = whole::state(program, &memories.heap, &memories.texts)?;
    let instruction = heap[heap::POSITION].checked_sub(1)?;
    let (mut spare, mut texts) = (memories.heap.clone(), memories.texts.clone());
    let spare: &mut Heap = (&mut *spare).try_into().ok()?;
    let reached = collect(spare);
    let machine = Machine::new(program, spare, literals, (&mut *texts).try_into().ok()?);
    let names = Names { program, source };
    let fault = Step { program, heap, machine, reached, places, names, instruction }.perform().err()?;
    Some(Ended { number: fault.end as u32, instruction, operand: fault.operand, detail: fault.detail })
}

struct Fault {
    end: End,
    operand: Option<Range<usize>>,
    detail: String,
}

/// An instruction, tried over memories in which just what is reached is in use.
struct Step<'a> {
    program: &'a Program,
    heap: &'a Heap,
    machine: Machine<'a>,
    reached: Totals,
    places: &'a Places,
    names: Names<'a>,
    instruction: u32,
}

/// An operand with its value.
#[derive(Clone, Copy)]
struct Operand {
    x: u32,
    value: Value,
}

impl Step<'_> {
    fn perform(&self) -> Result<(), Fault> {
        let [kind, a, b, c, _] = entry(self.program, layout::instruction(self.instruction));
        match kind {
            instruction_kind::ASSIGN_SELF => self.assign(heap::SELF, a, b, c),
            instruction_kind::ASSIGN_PROGRAM => self.assign(heap::PROGRAM, a, b, c),
            instruction_kind::SHOW => self.base(a).map(drop),
            instruction_kind::JUMP => self.jump(a, b),
            _ if self.base(a)?.value.truth() => Ok(()),
            _ => self.jump(b, c),
        }
    }

    fn place(&self, x: u32) -> Option<Range<usize>> {
        self.places.expressions.get(x as usize).cloned()
    }

    fn jump(&self, a: u32, b: u32) -> Result<(), Fault> {
        let target = self.base(a)?;
        if !matches!(target.value, Value::Code(_)) {
            let detail =
                format!("the target of a jump must be a code; {} is {}", self.shown(a), kind(target.value));
            return Err(Fault { end: End::NoRule, operand: self.place(a), detail });
        }
        self.base(b).map(drop)
    }

    /// Room, then the right side, then the walk on the left.
    fn assign(&self, root: usize, first: u32, count: u32, x: u32) -> Result<(), Fault> {
        self.room(x)?;
        self.expression(x)?;
        let place = self.places.targets.get(self.instruction as usize).cloned().flatten();
        self.machine.target(root, first, count).map(drop).map_err(|end| {
            let path = self.names.path(root, first, count, place.as_ref());
            let detail = if end == End::SlotLimit { path.full() } else { path.lost(self.heap) };
            Fault { end, operand: place, detail }
        })
    }

    fn room(&self, x: u32) -> Result<(), Fault> {
        let (frames, texts) = self.machine.needs(x);
        let full = |end, reached, word, made, limit, at: usize| {
            let most = self.program[at];
            if reached + made <= most {
                return Ok(());
            }
            let reached = counted(reached as usize, word);
            let detail = format!("{reached} reached, the instruction makes {made}, {limit} is {most}");
            Err(Fault { end, operand: None, detail })
        };
        full(End::FramesFull, self.reached.frames, "frame", frames, "F", layout::FRAME_LIMIT)?;
        full(End::TextsFull, self.reached.texts, "made text", texts, "T", layout::TEXT_LIMIT)
    }

    /// The first end that an expression meets.
    fn expression(&self, x: u32) -> Result<(), Fault> {
        let [kind, a, b, ..] = entry(self.program, layout::expression(x));
        match kind {
            expression_kind::FRAME => self.machine.slots(x).try_for_each(|y| self.expression(y)),
            ..=expression_kind::CODE => self.base(x).map(drop),
            expression_kind::NOT => self.base(a).map(drop),
            _ => self.operation(x, layout::operator(kind), self.base(a)?, self.base(b)?),
        }
    }

    fn operation(&self, x: u32, operator: Operator, a: Operand, b: Operand) -> Result<(), Fault> {
        self.machine.operate(operator, a.value, b.value).map(drop).map_err(|end| {
            let (at, detail) = match end {
                End::NoRule => self.wrong_kind(operator, a, b),
                End::DivisorZero => (b.x, "the divisor is 0".into()),
                End::IntegerRange => (x, exact(operator, a.value, b.value)),
                _ => (x, self.joined(a.value, b.value)),
            };
            Fault { end, operand: self.place(at), detail }
        })
    }

    /// The first of two operands that is no integer.
    fn wrong_kind(&self, operator: Operator, a: Operand, b: Operand) -> (u32, String) {
        let wrong = if matches!(a.value, Value::Integer(_)) { b } else { a };
        let (shown, kind, sign) = (self.shown(wrong.x), kind(wrong.value), operator.sign());
        (wrong.x, format!("{shown} is {kind}, and `{sign}` wants two integers"))
    }

    fn joined(&self, a: Value, b: Value) -> String {
        let length = self.machine.shown_length(a) + self.machine.shown_length(b);
        format!("the joined text would have {length} bytes, {STRING_BYTES} are the most")
    }

    fn base(&self, x: u32) -> Result<Operand, Fault> {
        self.machine.base(x).map(|value| Operand { x, value }).map_err(|end| {
            let detail = self.path(x).map(|path| path.lost(self.heap)).unwrap_or_default();
            Fault { end, operand: self.place(x), detail }
        })
    }

    /// The path that an expression is.
    fn path(&self, x: u32) -> Option<Path<'_>> {
        let [kind, a, b, ..] = entry(self.program, layout::expression(x));
        let root = match kind {
            expression_kind::FROM_SELF => heap::SELF,
            expression_kind::FROM_PROGRAM => heap::PROGRAM,
            _ => return None,
        };
        Some(self.names.path(root, a, b, self.place(x).as_ref()))
    }

    /// A base as it is written.
    fn shown(&self, x: u32) -> String {
        let [kind, a, ..] = entry(self.program, layout::expression(x));
        match (kind, self.path(x)) {
            (_, Some(path)) => path.shown(),
            (expression_kind::INTEGER, _) => format!("`{}`", a as i32),
            (expression_kind::LITERAL, _) => self.place(x).map_or("the string".into(), |place| {
                quoted(self.names.source.get(place).unwrap_or_default())
            }),
            _ => "`code {..}`".into(),
        }
    }
}

/// An operation of two integers and its exact result.
fn exact(operator: Operator, a: Value, b: Value) -> String {
    let (Value::Integer(a), Value::Integer(b)) = (a, b) else {
        return String::new();
    };
    let (n, m) = (i64::from(a), i64::from(b));
    let result = match operator {
        Operator::Plus => n + m,
        Operator::Minus => n - m,
        Operator::Times => n * m,
        _ => n.checked_div(m).unwrap_or(0),
    };
    format!("{a} {} {b} is {result}, the range is {} to {}", operator.sign(), i32::MIN, i32::MAX)
}

/// The names of the program, and the source for how paths are written.
#[derive(Clone, Copy)]
struct Names<'a> {
    program: &'a Program,
    source: &'a [u8],
}

impl<'a> Names<'a> {
    fn name(&self, k: u32) -> String {
        let at = layout::name(k);
        let bytes: Vec<u8> =
            self.program[at + 1..][..self.program[at] as usize].iter().map(|&word| word as u8).collect();
        bytes.escape_ascii().to_string()
    }

    fn path(&self, root: usize, first: u32, count: u32, place: Option<&Range<usize>>) -> Path<'a> {
        let names = &self.program[layout::path_name(first)..][..count as usize];
        let written = place.and_then(|place| self.source.get(place.clone())).unwrap_or_default();
        let (mut ups, mut own) = (0, 0);
        for token in Tokens::new(written).map_while(Result::ok) {
            match token {
                Token::Up => ups += 1,
                Token::Name(_) => own += 1,
                _ => {}
            }
        }
        let levels = names.len().checked_sub(own).filter(|_| ups > 0);
        Path { table: *self, root, names, ups, levels }
    }
}

/// A resolved path and how it is written.
struct Path<'a> {
    table: Names<'a>,
    root: usize,
    names: &'a [u32],
    /// How many `^` are written, and how many of the names they stand for.
    ups: usize,
    levels: Option<usize>,
}

impl Path<'_> {
    /// The path to what the first names lead to. Above the highest written `^` it begins with the word `program`.
    fn front(&self, count: usize) -> String {
        let (mut path, from) = match self.levels {
            _ if self.root == heap::SELF => ("self".to_string(), 0),
            Some(levels) if levels <= count => (vec!["^"; self.ups].join("."), levels),
            _ => ("program".to_string(), 0),
        };
        for &name in &self.names[from..count] {
            path.push('.');
            path.push_str(&self.table.name(name));
        }
        short(path.as_bytes())
    }

    fn shown(&self) -> String {
        format!("`{}`", self.front(self.names.len()))
    }

    /// Where the walk along the names fails.
    fn lost(&self, heap: &Heap) -> String {
        let mut value = Value::read(heap, self.root);
        for (i, &name) in self.names.iter().enumerate() {
            let Value::Frame(f) = value else {
                return format!("{}: {} is {} and not a frame", self.shown(), self.front(i), kind(value));
            };
            let Some(slot) = heap::find_slot(heap, heap::frame(f), name) else {
                let (shown, name, front) = (self.shown(), self.table.name(name), self.front(i));
                return format!("{shown}: no slot `{name}` in {front}{}", self.which(i));
            };
            value = Value::read(heap, slot + 1);
        }
        String::new()
    }

    /// The frame that the `^` of a path are, where the first names lead to just that.
    fn which(&self, count: usize) -> String {
        match self.levels {
            Some(0) if count == 0 => ", which is the program".into(),
            Some(levels) if count == levels => {
                let names: Vec<_> = self.names[..levels].iter().map(|&name| self.table.name(name)).collect();
                format!(", which is `{}`", names.join("."))
            }
            _ => String::new(),
        }
    }

    /// The frame that has no room for the last name.
    fn full(&self) -> String {
        let Some((&name, walk)) = self.names.split_last() else {
            return String::new();
        };
        let frame = self.front(walk.len());
        format!("`{frame}` has {} slots, `{}` would be the 17th", layout::MOST_SLOTS, self.table.name(name))
    }
}
