//! Write: the program as Framed text.
//!
//! A word is a token, or all tokens of a path. One space stands between neighbouring words and none inside one, so that
//! every word but the first is put with a space before it.
use super::layout::{self, after, entry, expression_kind, instruction_kind, Literals, Program};
use super::run::{decimal, DECIMAL_BYTES};
use super::{whole, NOT_WHOLE};
use crate::{Refusal, SOURCE_BYTES};
use std::mem;

const SHORT_BUFFER: Refusal = Refusal(23);

/// Writes the text of the program to the front of `out` and gives its length; nothing else of `out` is touched. No run and
/// no collect changes the text.
pub fn write(
    program: &[u32],
    heap: &[u32],
    literals: &[u8],
    texts: &[u8],
    out: &mut [u8],
) -> Result<usize, Refusal> {
    let (program, literals) = whole::program(program, literals).ok_or(NOT_WHOLE)?;
    whole::state(program, heap, texts).ok_or(NOT_WHOLE)?;
    // whole memories may have a text of more bytes than there are: so it is written to an array first, and counted up to
    // the buffer's length
    let mut array = [0; SOURCE_BYTES];
    let counted = Counted { array: &mut array, length: 0, limit: out.len() };
    let Counted { length, .. } = Writer::new(program, literals, counted).text()?;
    match array.get(..length) {
        Some(text) => out[..length].copy_from_slice(text),
        None => drop(Writer::new(program, literals, Rest(out)).text()?),
    }
    Ok(length)
}

/// Where the bytes of the text go. Bytes that do not fit are refused.
trait Sink {
    fn put(&mut self, bytes: &[u8]) -> Result<(), Refusal>;
    /// Bytes that lie one to a word.
    fn put_words(&mut self, words: &[u32]) -> Result<(), Refusal>;
}

/// How many bytes there are, up to a limit; those that fit into the array stand there.
struct Counted<'a> {
    array: &'a mut [u8],
    length: usize,
    limit: usize,
}

impl Counted<'_> {
    /// The place of so many more bytes, where the array has one.
    fn more(&mut self, count: usize) -> Result<Option<&mut [u8]>, Refusal> {
        let at = self.length;
        self.length += count;
        if self.length > self.limit {
            return Err(SHORT_BUFFER);
        }
        Ok(self.array.get_mut(at..self.length))
    }
}

impl Sink for Counted<'_> {
    fn put(&mut self, bytes: &[u8]) -> Result<(), Refusal> {
        if let Some(place) = self.more(bytes.len())? {
            place.copy_from_slice(bytes);
        }
        Ok(())
    }

    fn put_words(&mut self, words: &[u32]) -> Result<(), Refusal> {
        if let Some(place) = self.more(words.len())? {
            place.iter_mut().zip(words).for_each(|(byte, &word)| *byte = word as u8);
        }
        Ok(())
    }
}

/// What is left of a buffer.
struct Rest<'a>(&'a mut [u8]);

impl<'a> Rest<'a> {
    /// The bytes from the front; they are taken off.
    fn front(&mut self, length: usize) -> Result<&'a mut [u8], Refusal> {
        let (front, rest) = mem::take(&mut self.0).split_at_mut_checked(length).ok_or(SHORT_BUFFER)?;
        self.0 = rest;
        Ok(front)
    }
}

impl Sink for Rest<'_> {
    fn put(&mut self, bytes: &[u8]) -> Result<(), Refusal> {
        self.front(bytes.len())?.copy_from_slice(bytes);
        Ok(())
    }

    fn put_words(&mut self, words: &[u32]) -> Result<(), Refusal> {
        self.front(words.len())?.iter_mut().zip(words).for_each(|(byte, &word)| *byte = word as u8);
        Ok(())
    }
}

struct Writer<'a, S> {
    program: &'a Program,
    literals: &'a Literals,
    sink: S,
    /// The names of the holding frame, from the program frame down.
    holding: Vec<u32>,
}

impl<'a, S: Sink> Writer<'a, S> {
    fn new(program: &'a Program, literals: &'a Literals, sink: S) -> Writer<'a, S> {
        Writer { program, literals, sink, holding: Vec::new() }
    }

    /// The whole text. Gives the sink back.
    fn text(mut self) -> Result<S, Refusal> {
        self.sink.put(b"frame : [")?;
        self.slots(self.program[layout::PROGRAM_SLOTS], true)?;
        self.sink.put(b" ]")?;
        Ok(self.sink)
    }

    /// The slots of a frame, from a place on. Those of a frame outside code have one more name above them than the frame.
    fn slots(&mut self, mut place: u32, outside: bool) -> Result<(), Refusal> {
        let mut before = &b" "[..];
        while let Some(x) = place.checked_sub(1) {
            let [kind, a, _, name, next] = entry(self.program, layout::expression(x));
            self.sink.put(before)?;
            self.name(name)?;
            self.sink.put(b" :=")?;
            if outside && kind == expression_kind::FRAME {
                self.holding.push(name);
                self.frame(after(x, a), true)?;
                self.holding.pop();
            } else {
                self.expression(x)?;
            }
            before = b" , ";
            place = after(x, next);
        }
        Ok(())
    }

    fn frame(&mut self, slots: u32, outside: bool) -> Result<(), Refusal> {
        self.sink.put(b" frame : [")?;
        self.slots(slots, outside)?;
        self.sink.put(b" ]")
    }

    /// An expression in code, or one outside code that is no frame.
    fn expression(&mut self, x: u32) -> Result<(), Refusal> {
        let [kind, a, b, ..] = entry(self.program, layout::expression(x));
        match kind {
            ..=expression_kind::CODE => self.base(x),
            expression_kind::FRAME => self.frame(after(x, a), false),
            expression_kind::NOT => {
                self.sink.put(b" !")?;
                self.base(a)
            }
            _ => {
                self.base(a)?;
                self.sink.put(b" ")?;
                self.sink.put(layout::operator(kind).sign().as_bytes())?;
                self.base(b)
            }
        }
    }

    /// An expression that is an integer, a literal, a path or a code.
    fn base(&mut self, x: u32) -> Result<(), Refusal> {
        let [kind, a, b, ..] = entry(self.program, layout::expression(x));
        match kind {
            expression_kind::INTEGER => {
                self.sink.put(b" ")?;
                self.sink.put(decimal(a as i32, &mut [0; DECIMAL_BYTES]))
            }
            expression_kind::LITERAL => {
                self.sink.put(b" \"")?;
                self.sink.put(layout::literal(self.program, self.literals, a))?;
                self.sink.put(b"\"")
            }
            expression_kind::CODE => self.code(self.program[layout::code(a)]),
            expression_kind::FROM_SELF => self.self_path(a, b),
            _ => self.program_path(a, b),
        }
    }

    /// A code whose instructions begin at a place.
    fn code(&mut self, mut place: u32) -> Result<(), Refusal> {
        self.sink.put(b" code {")?;
        while let Some(i) = place.checked_sub(1) {
            self.instruction(i)?;
            self.sink.put(b" ;")?;
            place = after(i, self.program[layout::instruction(i) + 4]);
        }
        self.sink.put(b" }")
    }

    fn instruction(&mut self, i: u32) -> Result<(), Refusal> {
        let [kind, a, b, c, _] = entry(self.program, layout::instruction(i));
        match kind {
            instruction_kind::ASSIGN_SELF | instruction_kind::ASSIGN_PROGRAM => {
                if kind == instruction_kind::ASSIGN_SELF {
                    self.self_path(a, b)?;
                } else {
                    self.program_path(a, b)?;
                }
                self.sink.put(b" :=")?;
                self.expression(c)
            }
            instruction_kind::SHOW => {
                self.sink.put(b" show")?;
                self.base(a)
            }
            instruction_kind::JUMP => {
                self.sink.put(b" jump")?;
                self.base(a)?;
                self.base(b)
            }
            _ => {
                self.sink.put(b" ifeq")?;
                self.base(a)?;
                self.base(b)?;
                self.base(c)
            }
        }
    }

    fn self_path(&mut self, first: u32, count: u32) -> Result<(), Refusal> {
        self.sink.put(b" self")?;
        self.names(self.path(first, count))
    }

    /// Climbs from the holding frame, which the first `^` is, to the deepest frame that the path shares with it.
    fn program_path(&mut self, first: u32, count: u32) -> Result<(), Refusal> {
        let names = self.path(first, count);
        let shared = names.iter().zip(&self.holding).take_while(|(name, holding)| name == holding).count();
        self.sink.put(b" ^")?;
        for _ in shared..self.holding.len() {
            self.sink.put(b".^")?;
        }
        self.names(&names[shared..])
    }

    fn path(&self, first: u32, count: u32) -> &'a [u32] {
        layout::path(self.program, first, count)
    }

    fn names(&mut self, names: &[u32]) -> Result<(), Refusal> {
        names.iter().try_for_each(|&name| {
            self.sink.put(b".")?;
            self.name(name)
        })
    }

    fn name(&mut self, k: u32) -> Result<(), Refusal> {
        let at = layout::name(k);
        let length = self.program[at] as usize;
        self.sink.put_words(&self.program[at + 1..][..length])
    }
}
