//! The machine over whole memories: a step, and the run that makes steps.
use super::collect;
use super::equality::same_codes;
use super::heap::{self, Heap, Value};
use super::layout::{self, entry, expression_kind, instruction_kind, Literals, Program, Texts};
use super::token::{Operator, STRING_BYTES};
use crate::{End, RunReport, Stop};

/// The longest decimal integer, `-2147483648`.
pub const DECIMAL_BYTES: usize = 11;

pub struct Machine<'a> {
    program: &'a Program,
    heap: &'a mut Heap,
    literals: &'a Literals,
    texts: &'a mut Texts,
    /// How many frames and made texts are in use. Every number below the second of each pair is in use.
    frames: Use,
    made_texts: Use,
}

struct Use {
    count: u32,
    lowest: u32,
}

/// What keeps a step from being made.
enum Halt {
    End(End),
    Output,
}

impl From<End> for Halt {
    fn from(end: End) -> Halt {
        Halt::End(end)
    }
}

/// How a frame and a code are shown and joined.
const FRAME_WORD: &[u8] = b"frame";
const CODE_WORD: &[u8] = b"code";

/// What an expression without frame literals gives: a value, or two values to be joined.
pub(crate) enum Product {
    Value(Value),
    Joined(Value, Value),
}

/// Where an assignment goes.
pub(crate) enum Target {
    Root(usize),
    Slot(usize),
    NewSlot { frame: usize, name: u32 },
}

impl<'a> Machine<'a> {
    pub fn new(
        program: &'a Program,
        heap: &'a mut Heap,
        literals: &'a Literals,
        texts: &'a mut Texts,
    ) -> Machine<'a> {
        let frames = (0..heap::FRAMES).filter(|&f| heap[heap::frame(f)] != 0).count() as u32;
        let made = (0..heap::TEXTS).filter(|&k| heap[heap::text(k)] != 0).count() as u32;
        Machine {
            program,
            heap,
            literals,
            texts,
            frames: Use { count: frames, lowest: 0 },
            made_texts: Use { count: made, lowest: 0 },
        }
    }

    pub fn run(mut self, fuel: u32, out: &mut [u8]) -> RunReport {
        let mut steps = 0;
        let mut bytes = 0;
        let stop = loop {
            if let Some(end) = End::from_number(self.heap[heap::END_MARK]) {
                break Stop::End(end);
            }
            let Some(i) = self.heap[heap::POSITION].checked_sub(1) else {
                break Stop::Done;
            };
            if steps == fuel {
                break Stop::Fuel;
            }
            match self.step(i, &mut out[bytes..]) {
                Ok(shown) => {
                    steps += 1;
                    bytes += shown;
                }
                Err(Halt::End(end)) => {
                    self.heap[heap::END_MARK] = end as u32;
                    break Stop::End(end);
                }
                Err(Halt::Output) => break Stop::Output,
            }
        };
        RunReport { stop, steps, bytes }
    }

    /// Makes the step of instruction i. Gives how many bytes it wrote to the front of `space`.
    fn step(&mut self, i: u32, space: &mut [u8]) -> Result<usize, Halt> {
        let [kind, a, b, c, next] = entry(self.program, layout::instruction(i));
        let mut shown = 0;
        match kind {
            instruction_kind::ASSIGN_SELF => self.assign(heap::SELF, a, b, c)?,
            instruction_kind::ASSIGN_PROGRAM => self.assign(heap::PROGRAM, a, b, c)?,
            instruction_kind::SHOW => shown = self.show(a, space)?,
            instruction_kind::JUMP => return Ok(self.jump(a, b)?),
            _ => {
                if !self.base(a)?.truth() {
                    return Ok(self.jump(b, c)?);
                }
            }
        }
        self.heap[heap::POSITION] = if next == 0 { 0 } else { 1 + i + next };
        Ok(shown)
    }

    fn show(&self, x: u32, space: &mut [u8]) -> Result<usize, Halt> {
        let value = self.base(x)?;
        let mut digits = [0; DECIMAL_BYTES];
        let text = match value {
            Value::Frame(_) => FRAME_WORD,
            Value::Code(_) => CODE_WORD,
            Value::Integer(n) => decimal(n, &mut digits),
            Value::Literal(_) | Value::Made(_) => self.text(value).unwrap_or_default(),
        };
        let line = space.get_mut(..=text.len()).ok_or(Halt::Output)?;
        line[..text.len()].copy_from_slice(text);
        line[text.len()] = b'\n';
        Ok(line.len())
    }

    /// The first operand must be code; self becomes the second.
    fn jump(&mut self, a: u32, b: u32) -> Result<usize, End> {
        let Value::Code(k) = self.base(a)? else {
            return Err(End::NoRule);
        };
        self.base(b)?.write(self.heap, heap::SELF);
        self.heap[heap::POSITION] = self.program[layout::code(k)];
        Ok(0)
    }

    fn assign(&mut self, root: usize, first: u32, count: u32, x: u32) -> Result<(), End> {
        let kind = self.program[layout::expression(x)];
        if kind == expression_kind::FRAME {
            let (frames, texts) = self.needs(x);
            self.reserve(frames, texts)?;
            self.check(x)?;
            let target = self.target(root, first, count)?;
            let value = self.make(x);
            self.put(target, value);
        } else {
            if kind == layout::JOIN {
                self.reserve(0, 1)?;
            }
            let product = self.product(x)?;
            let target = self.target(root, first, count)?;
            let value = self.produce(product);
            self.put(target, value);
        }
        Ok(())
    }

    /// Put's walk from self or program.
    pub(crate) fn target(&self, root: usize, first: u32, count: u32) -> Result<Target, End> {
        let Some((&name, walk)) = self.path(first, count).split_last() else {
            return Ok(Target::Root(root));
        };
        let Some(Value::Frame(f)) = heap::fetch(self.heap, Value::read(self.heap, root), walk) else {
            return Err(End::NoRule);
        };
        let frame = heap::frame(f);
        if let Some(slot) = heap::find_slot(self.heap, frame, name) {
            return Ok(Target::Slot(slot));
        }
        if self.heap[frame + heap::SLOT_COUNT] as usize == layout::MOST_SLOTS {
            return Err(End::SlotLimit);
        }
        Ok(Target::NewSlot { frame, name })
    }

    fn put(&mut self, target: Target, value: Value) {
        match target {
            Target::Root(at) => value.write(self.heap, at),
            Target::Slot(at) => value.write(self.heap, at + 1),
            Target::NewSlot { frame, name } => heap::push_slot(self.heap, frame, name, value),
        }
    }

    fn path(&self, first: u32, count: u32) -> &'a [u32] {
        layout::path(self.program, first, count)
    }

    /// The value of an expression that is an integer, a literal, a path or a code.
    pub(crate) fn base(&self, x: u32) -> Result<Value, End> {
        let [kind, a, b, ..] = entry(self.program, layout::expression(x));
        let root = match kind {
            expression_kind::INTEGER => return Ok(Value::Integer(a as i32)),
            expression_kind::LITERAL => return Ok(Value::Literal(a)),
            expression_kind::CODE => return Ok(Value::Code(a)),
            expression_kind::FROM_SELF => heap::SELF,
            _ => heap::PROGRAM,
        };
        heap::fetch(self.heap, Value::read(self.heap, root), self.path(a, b)).ok_or(End::NoRule)
    }

    /// What an expression other than a frame literal gives.
    fn product(&self, x: u32) -> Result<Product, End> {
        let [kind, a, b, ..] = entry(self.program, layout::expression(x));
        match kind {
            ..=expression_kind::CODE => self.base(x).map(Product::Value),
            expression_kind::NOT => {
                let value = self.base(a)?;
                Ok(Product::Value(Value::Integer(i32::from(!value.truth()))))
            }
            _ => self.operate(layout::operator(kind), self.base(a)?, self.base(b)?),
        }
    }

    pub(crate) fn operate(&self, operator: Operator, v: Value, w: Value) -> Result<Product, End> {
        let n = match operator {
            Operator::Plus => arithmetic(v, w, |a, b| Ok(a + b))?,
            Operator::Minus => arithmetic(v, w, |a, b| Ok(a - b))?,
            Operator::Times => arithmetic(v, w, |a, b| Ok(a * b))?,
            Operator::Over => arithmetic(v, w, |a, b| a.checked_div(b).ok_or(End::DivisorZero))?,
            Operator::Less => arithmetic(v, w, |a, b| Ok(i64::from(a < b)))?,
            Operator::Equal => i32::from(self.equal(v, w)),
            Operator::And => i32::from(v.truth() && w.truth()),
            Operator::Or => i32::from(v.truth() || w.truth()),
            Operator::Join => {
                if self.shown_length(v) + self.shown_length(w) > STRING_BYTES {
                    return Err(End::TextLength);
                }
                return Ok(Product::Joined(v, w));
            }
        };
        Ok(Product::Value(Value::Integer(n)))
    }

    fn equal(&self, v: Value, w: Value) -> bool {
        if let (Value::Code(k), Value::Code(m)) = (v, w) {
            return same_codes(self.program, self.literals, k, m);
        }
        match (self.text(v), self.text(w)) {
            (Some(a), Some(b)) => a == b,
            _ => v == w,
        }
    }

    /// The bytes of a text.
    fn text(&self, value: Value) -> Option<&[u8]> {
        match value {
            Value::Literal(k) => Some(layout::literal(self.program, self.literals, k)),
            Value::Made(k) => {
                let length = self.heap[heap::text(k)] as usize - 1;
                Some(&self.texts[layout::text(k)..][..length])
            }
            _ => None,
        }
    }

    /// How many bytes a show writes of a value, without byte 10, and a join takes of it.
    pub(crate) fn shown_length(&self, value: Value) -> usize {
        match value {
            Value::Frame(_) => FRAME_WORD.len(),
            Value::Code(_) => CODE_WORD.len(),
            Value::Integer(n) => decimal_length(n),
            Value::Literal(_) | Value::Made(_) => self.text(value).map_or(0, <[u8]>::len),
        }
    }

    /// Makes the text of a join; there is room for it.
    fn produce(&mut self, product: Product) -> Value {
        let (v, w) = match product {
            Product::Value(value) => return value,
            Product::Joined(v, w) => (v, w),
        };
        let heap = &*self.heap;
        let k = self.made_texts.take(|k| heap[heap::text(k)] == 0);
        let mut length = 0;
        for value in [v, w] {
            length += self.copy_text(value, layout::text(k) + length);
        }
        self.heap[heap::text(k)] = 1 + length as u32;
        Value::Made(k)
    }

    /// Writes what is shown of a value from a text byte on.
    fn copy_text(&mut self, value: Value, at: usize) -> usize {
        let mut digits = [0; DECIMAL_BYTES];
        let bytes = match value {
            Value::Integer(n) => decimal(n, &mut digits),
            Value::Made(k) => {
                let length = self.heap[heap::text(k)] as usize - 1;
                self.texts.copy_within(layout::text(k)..layout::text(k) + length, at);
                return length;
            }
            Value::Literal(k) => layout::literal(self.program, self.literals, k),
            Value::Frame(_) => FRAME_WORD,
            Value::Code(_) => CODE_WORD,
        };
        self.texts[at..at + bytes.len()].copy_from_slice(bytes);
        bytes.len()
    }

    /// The slots of the frame literal x.
    pub(crate) fn slots(&self, x: u32) -> impl Iterator<Item = u32> + 'a {
        let program = self.program;
        let follow = move |x: u32, distance: u32| (distance != 0).then(|| x + distance);
        let first = follow(x, program[layout::expression(x) + 1]);
        std::iter::successors(first, move |&y| follow(y, program[layout::expression(y) + 4]))
    }

    /// The frame literals and the `#` signs in an expression.
    pub(crate) fn needs(&self, x: u32) -> (u32, u32) {
        match self.program[layout::expression(x)] {
            expression_kind::FRAME => self.slots(x).fold((1, 0), |(frames, texts), y| {
                let (f, t) = self.needs(y);
                (frames + f, texts + t)
            }),
            layout::JOIN => (0, 1),
            _ => (0, 0),
        }
    }

    /// Room for so many more: where there is none, a collection.
    fn reserve(&mut self, frames: u32, texts: u32) -> Result<(), End> {
        if self.room(frames, texts).is_ok() {
            return Ok(());
        }
        let totals = collect::collect(self.heap);
        self.frames = Use { count: totals.frames, lowest: 0 };
        self.made_texts = Use { count: totals.texts, lowest: 0 };
        self.room(frames, texts)
    }

    fn room(&self, frames: u32, texts: u32) -> Result<(), End> {
        if self.frames.count + frames > self.program[layout::FRAME_LIMIT] {
            return Err(End::FramesFull);
        }
        if self.made_texts.count + texts > self.program[layout::TEXT_LIMIT] {
            return Err(End::TextsFull);
        }
        Ok(())
    }

    /// Whether an expression can be made: the first end that it meets.
    fn check(&self, x: u32) -> Result<(), End> {
        if self.program[layout::expression(x)] == expression_kind::FRAME {
            return self.slots(x).try_for_each(|y| self.check(y));
        }
        self.product(x).map(drop)
    }

    /// Makes the value of an expression that has been checked.
    fn make(&mut self, x: u32) -> Value {
        if self.program[layout::expression(x)] != expression_kind::FRAME {
            let product = self.product(x).unwrap_or(Product::Value(Value::Integer(0)));
            return self.produce(product);
        }
        let heap = &*self.heap;
        let f = self.frames.take(|f| heap[heap::frame(f)] == 0);
        // the position is still that of the instruction which is stepped
        let maker = self.heap[heap::POSITION];
        heap::take_frame(self.heap, f, maker);
        for y in self.slots(x) {
            let value = self.make(y);
            let name = self.program[layout::expression(y) + 3];
            heap::push_slot(self.heap, heap::frame(f), name, value);
        }
        Value::Frame(f)
    }
}

impl Use {
    /// Takes the lowest number that is free.
    fn take(&mut self, free: impl Fn(u32) -> bool) -> u32 {
        while !free(self.lowest) {
            self.lowest += 1;
        }
        self.count += 1;
        self.lowest += 1;
        self.lowest - 1
    }
}

fn arithmetic(v: Value, w: Value, f: impl Fn(i64, i64) -> Result<i64, End>) -> Result<i32, End> {
    let (Value::Integer(a), Value::Integer(b)) = (v, w) else {
        return Err(End::NoRule);
    };
    i32::try_from(f(a.into(), b.into())?).map_err(|_| End::IntegerRange)
}

/// How many bytes the decimal integer has, found without its digits.
fn decimal_length(n: i32) -> usize {
    let digits = n.unsigned_abs().checked_ilog10().map_or(1, |k| k as usize + 1);
    digits + usize::from(n < 0)
}

/// The decimal digits of an integer, with its sign.
pub fn decimal(n: i32, digits: &mut [u8; DECIMAL_BYTES]) -> &[u8] {
    let mut rest = n.unsigned_abs();
    let mut start = DECIMAL_BYTES;
    loop {
        start -= 1;
        digits[start] = b'0' + (rest % 10) as u8;
        rest /= 10;
        if rest == 0 {
            break;
        }
    }
    if n < 0 {
        start -= 1;
        digits[start] = b'-';
    }
    &digits[start..]
}
