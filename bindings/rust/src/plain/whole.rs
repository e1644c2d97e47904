//! Whether memories are whole: what the specification asks of them before every call but load.
use super::heap::{self, Heap};
use super::layout::{self, entry, expression_kind, instruction_kind, Literals, Program, Texts};
use super::token::{in_string, NAME_BYTES, STRING_BYTES};

/// Program words and literal bytes that are whole.
pub fn program<'a>(program: &'a [u32], literals: &'a [u8]) -> Option<(&'a Program, &'a Literals)> {
    let program: &Program = program.try_into().ok()?;
    let literals: &Literals = literals.try_into().ok()?;
    let whole = limits(program)
        && names(program)
        && texts(program, literals)
        && path_names(program)
        && Entries { program }.whole()
        && Parts::new(program).whole();
    whole.then_some((program, literals))
}

/// Heap words and text bytes that are whole over a whole program.
pub fn state<'a>(program: &Program, heap: &'a [u32], texts: &'a [u8]) -> Option<(&'a Heap, &'a Texts)> {
    let heap: &Heap = heap.try_into().ok()?;
    let texts: &Texts = texts.try_into().ok()?;
    State { program, heap, texts }.whole().then_some((heap, texts))
}

/// The same, lent to be written.
pub fn state_mut<'a>(
    program: &Program,
    heap: &'a mut [u32],
    texts: &'a mut [u8],
) -> Option<(&'a mut Heap, &'a mut Texts)> {
    state(program, heap, texts)?;
    Some((heap.try_into().ok()?, texts.try_into().ok()?))
}

/// F, T, the counts and the number of the start.
fn limits(program: &Program) -> bool {
    (3..=layout::MOST_FRAMES).contains(&program[layout::FRAME_LIMIT])
        && program[layout::TEXT_LIMIT] <= layout::MOST_TEXTS
        && program[layout::NAMES] <= layout::MOST_NAMES
        && program[layout::LITERALS] <= layout::MOST_LITERALS
        && program[layout::EXPRESSIONS] <= layout::MOST_EXPRESSIONS
        && program[layout::INSTRUCTIONS] <= layout::MOST_INSTRUCTIONS
        && program[layout::CODES] <= layout::MOST_CODES
        && program[layout::PATH_NAMES] <= layout::MOST_PATH_NAMES
        && program[layout::START] < program[layout::CODES]
}

/// Names are distinct, of 1 to 16 bytes.
fn names(program: &Program) -> bool {
    let mut seen = [(0u32, 0u128); layout::MOST_NAMES as usize];
    for k in 0..program[layout::NAMES] {
        let at = layout::name(k);
        let length = program[at] as usize;
        if !(1..=NAME_BYTES).contains(&length) {
            return false;
        }
        let bytes = &program[at + 1..][..length];
        if bytes.iter().any(|&byte| byte > 255) {
            return false;
        }
        let name = (program[at], bytes.iter().fold(0, |name, &byte| name << 8 | u128::from(byte)));
        let (earlier, rest) = seen.split_at_mut(k as usize);
        if earlier.contains(&name) {
            return false;
        }
        rest[0] = name;
    }
    true
}

/// Literals keep the string rule.
fn texts(program: &Program, literals: &Literals) -> bool {
    (0..program[layout::LITERALS]).all(|k| {
        let length = program[layout::literal_length(k)] as usize;
        length <= STRING_BYTES && literals[layout::text(k)..][..length].iter().all(|&byte| in_string(byte))
    })
}

fn path_names(program: &Program) -> bool {
    let count = program[layout::PATH_NAMES] as usize;
    program[layout::path_name(0)..][..count].iter().all(|&name| name < program[layout::NAMES])
}

/// Every entry has a form of the grammar, and every number in it names an existing entry.
struct Entries<'a> {
    program: &'a Program,
}

impl Entries<'_> {
    fn whole(&self) -> bool {
        let program = self.program;
        (0..program[layout::EXPRESSIONS]).all(|x| self.expression(x))
            && (0..program[layout::INSTRUCTIONS]).all(|i| self.instruction(i))
            && (0..program[layout::CODES]).all(|k| program[layout::code(k)] <= program[layout::INSTRUCTIONS])
            && self.slots(program[layout::PROGRAM_SLOTS])
    }

    fn expression(&self, x: u32) -> bool {
        let [kind, a, b, ..] = entry(self.program, layout::expression(x));
        match kind {
            expression_kind::INTEGER => true,
            expression_kind::LITERAL => a < self.program[layout::LITERALS],
            expression_kind::FROM_SELF | expression_kind::FROM_PROGRAM => self.path(a, b),
            expression_kind::CODE => a < self.program[layout::CODES],
            expression_kind::FRAME => {
                link(x, a, self.program[layout::EXPRESSIONS]).is_some_and(|first| self.slots(first))
            }
            expression_kind::NOT => self.base(a),
            expression_kind::OPERATORS..expression_kind::END => self.base(a) && self.base(b),
            _ => false,
        }
    }

    fn instruction(&self, i: u32) -> bool {
        let [kind, a, b, c, next] = entry(self.program, layout::instruction(i));
        let form = match kind {
            instruction_kind::ASSIGN_SELF | instruction_kind::ASSIGN_PROGRAM => {
                self.path(a, b) && c < self.program[layout::EXPRESSIONS]
            }
            instruction_kind::SHOW => self.base(a),
            instruction_kind::JUMP => self.base(a) && self.base(b),
            instruction_kind::IFEQ => self.base(a) && self.base(b) && self.base(c),
            _ => false,
        };
        form && link(i, next, self.program[layout::INSTRUCTIONS]).is_some()
    }

    fn path(&self, first: u32, count: u32) -> bool {
        first.checked_add(count).is_some_and(|end| end <= self.program[layout::PATH_NAMES])
    }

    /// An expression that is an integer, a literal, a path or a code.
    fn base(&self, x: u32) -> bool {
        x < self.program[layout::EXPRESSIONS]
            && self.program[layout::expression(x)] <= expression_kind::CODE
    }

    /// The slots of a frame from a place on: at most 16, with distinct names.
    fn slots(&self, mut place: u32) -> bool {
        let mut names = [0; layout::MOST_SLOTS];
        let mut count = 0;
        while place != 0 {
            let x = place - 1;
            if x >= self.program[layout::EXPRESSIONS] || count == layout::MOST_SLOTS {
                return false;
            }
            let [.., name, next] = entry(self.program, layout::expression(x));
            if name >= self.program[layout::NAMES] || names[..count].contains(&name) {
                return false;
            }
            names[count] = name;
            count += 1;
            match link(x, next, self.program[layout::EXPRESSIONS]) {
                Some(next) => place = next,
                None => return false,
            }
        }
        true
    }
}

/// The place that a link of an entry leads to in a table of `count` entries; `None` where it leads past them.
fn link(entry: u32, distance: u32, count: u32) -> Option<u32> {
    if distance == 0 {
        return Some(0);
    }
    let next = entry.checked_add(distance)?;
    (next < count).then_some(next + 1)
}

/// What an expression is part of.
#[derive(Clone, Copy, PartialEq, Eq)]
enum Holder {
    Nothing,
    Expression(u16),
    Instruction(u16),
}

/// An expression is part of at most one other, before it, or of at most one instruction; an instruction stands in one
/// code; a code stands in one expression, and its instructions hold only codes of larger number.
struct Parts<'a> {
    program: &'a Program,
    holders: [Holder; layout::MOST_EXPRESSIONS as usize],
    /// For each instruction 1 + the code in which it stands.
    standing: [u32; layout::MOST_INSTRUCTIONS as usize],
}

impl<'a> Parts<'a> {
    fn new(program: &'a Program) -> Parts<'a> {
        Parts {
            program,
            holders: [Holder::Nothing; layout::MOST_EXPRESSIONS as usize],
            standing: [0; layout::MOST_INSTRUCTIONS as usize],
        }
    }

    fn whole(&mut self) -> bool {
        (0..self.program[layout::EXPRESSIONS]).all(|x| self.hold_by_expression(x))
            && (0..self.program[layout::INSTRUCTIONS]).all(|i| self.hold_by_instruction(i))
            && self.stand()
            && self.codes()
    }

    fn hold(&mut self, x: u32, holder: Holder) -> bool {
        let held = &mut self.holders[x as usize];
        if *held == Holder::Nothing {
            *held = holder;
        }
        *held == holder
    }

    fn hold_by_expression(&mut self, x: u32) -> bool {
        let holder = Holder::Expression(x as u16);
        let [kind, a, b, ..] = entry(self.program, layout::expression(x));
        match kind {
            expression_kind::FRAME => {
                let mut y = x;
                let mut distance = a;
                while distance != 0 {
                    y += distance;
                    if !self.hold(y, holder) {
                        return false;
                    }
                    distance = self.program[layout::expression(y) + 4];
                }
                true
            }
            expression_kind::NOT => x < a && self.hold(a, holder),
            expression_kind::OPERATORS.. => {
                x < a && x < b && self.hold(a, holder) && self.hold(b, holder)
            }
            _ => true,
        }
    }

    fn hold_by_instruction(&mut self, i: u32) -> bool {
        let holder = Holder::Instruction(i as u16);
        let [kind, a, b, c, _] = entry(self.program, layout::instruction(i));
        match kind {
            instruction_kind::SHOW => self.hold(a, holder),
            instruction_kind::JUMP => self.hold(a, holder) && self.hold(b, holder),
            instruction_kind::IFEQ => {
                self.hold(a, holder) && self.hold(b, holder) && self.hold(c, holder)
            }
            _ => self.hold(c, holder),
        }
    }

    /// Each instruction stands in one place of one code.
    fn stand(&mut self) -> bool {
        let mut count = 0;
        for k in 0..self.program[layout::CODES] {
            let mut place = self.program[layout::code(k)];
            while place != 0 {
                let i = place - 1;
                let standing = &mut self.standing[i as usize];
                if *standing != 0 {
                    return false;
                }
                *standing = 1 + k;
                count += 1;
                let distance = self.program[layout::instruction(i) + 4];
                place = if distance == 0 { 0 } else { place + distance };
            }
        }
        count == self.program[layout::INSTRUCTIONS]
    }

    /// Each code stands in one expression, which is written in no code or in one of smaller number.
    fn codes(&self) -> bool {
        // for each expression 0, or 1 + the code in which it is written; a holder comes before what it holds
        let mut written = [0; layout::MOST_EXPRESSIONS as usize];
        let mut named = [false; layout::MOST_CODES as usize];
        let mut count = 0;
        for x in 0..self.program[layout::EXPRESSIONS] {
            let inside = match self.holders[x as usize] {
                Holder::Nothing => 0,
                Holder::Expression(y) => written[usize::from(y)],
                Holder::Instruction(i) => self.standing[usize::from(i)],
            };
            written[x as usize] = inside;
            let [kind, k, ..] = entry(self.program, layout::expression(x));
            if kind == expression_kind::CODE {
                if named[k as usize] || k < inside {
                    return false;
                }
                named[k as usize] = true;
                count += 1;
            }
        }
        count == self.program[layout::CODES]
    }
}

/// Heap words and text bytes.
struct State<'a> {
    program: &'a Program,
    heap: &'a Heap,
    texts: &'a Texts,
}

impl State<'_> {
    fn whole(&self) -> bool {
        self.value(heap::SELF)
            && self.value(heap::PROGRAM)
            && self.heap[heap::POSITION] <= self.program[layout::INSTRUCTIONS]
            && matches!(self.heap[heap::END_MARK], 0 | 31..=37)
            && self.frames()
            && self.made_texts()
    }

    fn value(&self, at: usize) -> bool {
        let number = self.heap[at + 1];
        match self.heap[at] {
            0 => true,
            1 => number < self.program[layout::LITERALS],
            2 => number < heap::TEXTS && self.heap[heap::text(number)] != 0,
            3 => number < self.program[layout::CODES],
            4 => number < heap::FRAMES && self.heap[heap::frame(number)] == 1,
            _ => false,
        }
    }

    fn frames(&self) -> bool {
        let mut in_use = 0;
        for f in 0..heap::FRAMES {
            match self.heap[heap::frame(f)] {
                0 => continue,
                1 if self.frame(heap::frame(f)) => in_use += 1,
                _ => return false,
            }
        }
        in_use <= self.program[layout::FRAME_LIMIT]
    }

    /// A maker that exists or is 0; at most 16 slots with distinct names, and values that exist.
    fn frame(&self, frame: usize) -> bool {
        let count = self.heap[frame + heap::SLOT_COUNT] as usize;
        count <= layout::MOST_SLOTS
            && self.heap[frame + heap::MAKER] <= self.program[layout::INSTRUCTIONS]
            && (0..count).all(|i| {
                let name = self.heap[heap::slot(frame, i)];
                name < self.program[layout::NAMES]
                    && (0..i).all(|j| self.heap[heap::slot(frame, j)] != name)
                    && self.value(heap::slot(frame, i) + 1)
            })
    }

    fn made_texts(&self) -> bool {
        let mut in_use = 0;
        for k in 0..heap::TEXTS {
            let Some(length) = self.heap[heap::text(k)].checked_sub(1) else {
                continue;
            };
            let length = length as usize;
            if length > STRING_BYTES
                || !self.texts[layout::text(k)..][..length].iter().all(|&byte| in_string(byte))
            {
                return false;
            }
            in_use += 1;
        }
        in_use <= self.program[layout::TEXT_LIMIT]
    }
}
