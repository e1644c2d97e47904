//! Load: the program words and literal bytes of an accepted source, and its start in the heap words.
use super::heap::{self, Heap, Value};
use super::layout::{self, expression_kind, instruction_kind, Literals, Program};
use super::parse::{self, Base, Code, Expression, Instruction, Path, Root, Slot, Source};
use crate::{Refusal, SOURCE_BYTES, TEXT_BYTES};

/// The maker of frames that no step makes.
const LOADING: u32 = 0;

/// Loads a source with the limits F (`frames`) and T (`texts`): the memories then hold its program and its start.
pub fn load(
    source: &[u8],
    frames: u32,
    texts: u32,
    program: &mut [u32],
    heap: &mut [u32],
    literals: &mut [u8],
    text_bytes: &mut [u8],
) -> Result<(), Refusal> {
    let lengths = |_| Refusal(1);
    let program: &mut Program = program.try_into().map_err(lengths)?;
    let heap: &mut Heap = heap.try_into().map_err(lengths)?;
    let literals: &mut Literals = literals.try_into().map_err(lengths)?;
    if text_bytes.len() != TEXT_BYTES {
        return Err(Refusal(1));
    }
    if !(3..=layout::MOST_FRAMES).contains(&frames) || texts > layout::MOST_TEXTS {
        return Err(Refusal(2));
    }
    if source.len() > SOURCE_BYTES {
        return Err(Refusal(3));
    }
    let source = parse::parse(source, frames)?;
    program.fill(0);
    heap.fill(0);
    literals.fill(0);
    text_bytes.fill(0);
    program[layout::FRAME_LIMIT] = frames;
    program[layout::TEXT_LIMIT] = texts;
    write_tables(&source, program, literals);
    Emitter { program, expressions: 0, instructions: 0 }.slots(&source.slots);
    start(&source, program, heap);
    Ok(())
}

/// Header, names, literals and path names.
fn write_tables(source: &Source, program: &mut Program, literals: &mut Literals) {
    program[layout::NAMES] = source.names.len() as u32;
    program[layout::LITERALS] = source.literals.len() as u32;
    program[layout::EXPRESSIONS] = source.expressions;
    program[layout::INSTRUCTIONS] = source.instructions;
    program[layout::CODES] = source.codes;
    program[layout::PATH_NAMES] = source.path_names.len() as u32;
    program[layout::PROGRAM_SLOTS] = u32::from(!source.slots.is_empty());
    program[layout::START] = source.start;
    for (k, name) in (0..).zip(&source.names) {
        let at = layout::name(k);
        program[at] = name.len() as u32;
        for (word, &byte) in program[at + 1..].iter_mut().zip(*name) {
            *word = u32::from(byte);
        }
    }
    for (k, text) in (0..).zip(&source.literals) {
        program[layout::literal_length(k)] = text.len() as u32;
        literals[layout::text(k)..][..text.len()].copy_from_slice(text);
    }
    program[layout::path_name(0)..][..source.path_names.len()].copy_from_slice(&source.path_names);
}

/// Writes expressions and instructions. Each takes the next number where it begins, so parts come after their wholes.
struct Emitter<'a> {
    program: &'a mut Program,
    expressions: u32,
    instructions: u32,
}

impl Emitter<'_> {
    fn next_expression(&mut self) -> u32 {
        self.expressions += 1;
        self.expressions - 1
    }

    fn write_expression(&mut self, x: u32, kind: u32, a: u32, b: u32) {
        self.program[layout::expression(x)..][..3].copy_from_slice(&[kind, a, b]);
    }

    fn slots(&mut self, slots: &[Slot]) {
        let mut last = None;
        for slot in slots {
            let x = self.next_expression();
            if let Some(last) = last {
                self.program[layout::expression(last) + 4] = x - last;
            }
            last = Some(x);
            self.program[layout::expression(x) + 3] = slot.name;
            self.expression(x, &slot.value);
        }
    }

    fn expression(&mut self, x: u32, expression: &Expression) {
        match expression {
            Expression::Base(base) => self.base(x, base),
            Expression::Not(base) => {
                let a = self.operand(base);
                self.write_expression(x, expression_kind::NOT, a, 0);
            }
            Expression::Operation(operator, first, second) => {
                let a = self.operand(first);
                let b = self.operand(second);
                self.write_expression(x, expression_kind::OPERATORS + *operator as u32, a, b);
            }
            Expression::Frame(slots) => {
                let link = if slots.is_empty() { 0 } else { self.expressions - x };
                self.write_expression(x, expression_kind::FRAME, link, 0);
                self.slots(slots);
            }
        }
    }

    fn operand(&mut self, base: &Base) -> u32 {
        let x = self.next_expression();
        self.base(x, base);
        x
    }

    fn base(&mut self, x: u32, base: &Base) {
        match base {
            Base::Integer(n) => self.write_expression(x, expression_kind::INTEGER, *n as u32, 0),
            Base::Literal(k) => self.write_expression(x, expression_kind::LITERAL, *k, 0),
            Base::Path(Path { root, first, count }) => {
                let kind = match root {
                    Root::SelfValue => expression_kind::FROM_SELF,
                    Root::Program => expression_kind::FROM_PROGRAM,
                };
                self.write_expression(x, kind, *first, *count);
            }
            Base::Code(code) => {
                self.write_expression(x, expression_kind::CODE, code.number, 0);
                self.code(code);
            }
        }
    }

    fn code(&mut self, code: &Code) {
        let mut last = None;
        for instruction in &code.instructions {
            let i = self.instructions;
            self.instructions += 1;
            match last {
                Some(last) => self.program[layout::instruction(last) + 4] = i - last,
                None => self.program[layout::code(code.number)] = 1 + i,
            }
            last = Some(i);
            let words = self.instruction(instruction);
            self.program[layout::instruction(i)..][..4].copy_from_slice(&words);
        }
    }

    /// The words kind, a, b and c of an instruction.
    fn instruction(&mut self, instruction: &Instruction) -> [u32; 4] {
        match instruction {
            Instruction::Assign(Path { root, first, count }, expression) => {
                let kind = match root {
                    Root::SelfValue => instruction_kind::ASSIGN_SELF,
                    Root::Program => instruction_kind::ASSIGN_PROGRAM,
                };
                let x = self.next_expression();
                self.expression(x, expression);
                [kind, *first, *count, x]
            }
            Instruction::Show(a) => [instruction_kind::SHOW, self.operand(a), 0, 0],
            Instruction::Jump(a, b) => [instruction_kind::JUMP, self.operand(a), self.operand(b), 0],
            Instruction::Ifeq(a, b, c) => {
                [instruction_kind::IFEQ, self.operand(a), self.operand(b), self.operand(c)]
            }
        }
    }
}

/// The written frames are made, the program is the outer one, self a further empty frame, and the next instruction is the
/// first of Main.start.
fn start(source: &Source, program: &Program, heap: &mut Heap) {
    let mut frames = 0;
    let outer = make_frame(&source.slots, heap, &mut frames);
    heap::take_frame(heap, frames, LOADING);
    Value::Frame(frames).write(heap, heap::SELF);
    Value::Frame(outer).write(heap, heap::PROGRAM);
    heap[heap::POSITION] = program[layout::code(source.start)];
}

fn make_frame(slots: &[Slot], heap: &mut Heap, frames: &mut u32) -> u32 {
    let f = *frames;
    *frames += 1;
    heap::take_frame(heap, f, LOADING);
    for slot in slots {
        let value = match &slot.value {
            Expression::Base(Base::Integer(n)) => Value::Integer(*n),
            Expression::Base(Base::Literal(k)) => Value::Literal(*k),
            Expression::Base(Base::Code(code)) => Value::Code(code.number),
            Expression::Frame(slots) => Value::Frame(make_frame(slots, heap, frames)),
            Expression::Base(Base::Path(_)) | Expression::Not(_) | Expression::Operation(..) => {
                unreachable!("refused outside code")
            }
        };
        heap::push_slot(heap, heap::frame(f), slot.name, value);
    }
    f
}
