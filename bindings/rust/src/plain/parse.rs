//! The tree of a source, with every path resolved, and what load asks of it beside the grammar.
use super::layout;
use super::token::{Operator, Token, Tokens};
use crate::Refusal;
use std::collections::HashMap;
use std::hash::{BuildHasherDefault, Hasher};
use std::ops::Range;

/// `[` and `{` not yet closed, at most.
pub const MOST_NESTING: u32 = 16;

#[derive(Clone, Copy, Debug, PartialEq, Eq)]
pub enum Root {
    SelfValue,
    Program,
}

/// A resolved path: `count` path names from `first` on.
#[derive(Clone, Copy, Debug)]
pub struct Path {
    pub root: Root,
    pub first: u32,
    pub count: u32,
}

#[derive(Debug)]
pub enum Base {
    Integer(i32),
    Literal(u32),
    Path(Path),
    Code(Code),
}

#[derive(Debug)]
pub struct Code {
    pub number: u32,
    pub instructions: Vec<Instruction>,
}

#[derive(Debug)]
pub enum Expression {
    Base(Base),
    Not(Base),
    Operation(Operator, Base, Base),
    Frame(Vec<Slot>),
}

#[derive(Debug)]
pub struct Slot {
    pub name: u32,
    pub value: Expression,
}

#[derive(Debug)]
pub enum Instruction {
    Assign(Path, Expression),
    Show(Base),
    Jump(Base, Base),
    Ifeq(Base, Base, Base),
}

/// An accepted source.
pub struct Source<'a> {
    pub slots: Vec<Slot>,
    /// Names by first appearance, literals by where each begins, and the names of all resolved paths.
    pub names: Vec<&'a [u8]>,
    pub literals: Vec<&'a [u8]>,
    pub path_names: Vec<u32>,
    pub expressions: u32,
    pub instructions: u32,
    pub codes: u32,
    /// The number of the code in Main.start.
    pub start: u32,
}

/// What the grammar wants at a token.
#[derive(Clone, Copy, Debug, PartialEq, Eq)]
pub enum Wanted {
    Frame,
    Colon,
    OpenSquare,
    OpenCurly,
    Slot,
    NextSlot,
    SlotAssign,
    Assign,
    Expression,
    Base,
    Operator,
    Instruction,
    Semicolon,
    Dot,
    PathName,
    UpOrName,
    End,
}

/// A part of a source that a watch is told of.
#[derive(Clone, Copy, Debug, PartialEq, Eq)]
pub enum Part {
    Expression,
    Instruction,
    /// The path on the left of `:=`.
    Target,
    Code,
    /// A path, and how many names all paths up to it have.
    Path(usize),
    /// A path, operator or `!` outside code.
    OutsideCode,
    /// The front of a path with too many `^`, and how many the code could have.
    AboveProgram(usize),
}

/// Is told what the parser reads, by numbers of tokens. Load's watch does nothing, so that load pays nothing for it.
pub trait Watch {
    /// A part has been read.
    fn part(&mut self, _part: Part, _tokens: Range<usize>) {}
    /// A frame begins at its word `frame`.
    fn frame(&mut self, _at: usize, _in_code: bool) {}
    /// A slot of the innermost open frame begins, with the name of this number.
    fn slot(&mut self, _at: usize, _name: u32) {}
    /// The innermost open frame has been read.
    fn frame_ends(&mut self) {}
    /// What is wanted here is not there, but reading goes on.
    fn passes(&mut self, _at: usize, _wanted: Wanted) {}
    /// What is wanted here is not there, and reading ends.
    fn stops(&mut self, _at: usize, _wanted: Wanted, _in_code: bool) {}
}

struct Blind;

impl Watch for Blind {}

/// The tree of a source, or the lowest of the numbers 4 to 12 that holds over it.
pub fn parse(source: &[u8], frame_limit: u32) -> Result<Source<'_>, Refusal> {
    parse_watched(source, frame_limit, Blind)
}

/// The same, told to a watch.
pub fn parse_watched<W: Watch>(source: &[u8], frame_limit: u32, watch: W) -> Result<Source<'_>, Refusal> {
    let tokens: Vec<Token> = Tokens::new(source).collect::<Result<_, _>>().map_err(|_| Refusal(4))?;
    if highest_nesting(&tokens) > MOST_NESTING {
        return Err(Refusal(5));
    }
    let mut parser = Parser::new(tokens, watch);
    let slots = parser.source().ok_or(Refusal(6))?;
    parser.judge(slots, frame_limit)
}

fn highest_nesting(tokens: &[Token]) -> u32 {
    let mut open = 0u32;
    let mut highest = 0;
    for token in tokens {
        match token {
            Token::OpenSquare | Token::OpenCurly => open += 1,
            Token::CloseSquare | Token::CloseCurly => open = open.saturating_sub(1),
            _ => {}
        }
        highest = highest.max(open);
    }
    highest
}

/// Names are short, so a simple hash is enough.
#[derive(Default)]
struct NameHasher(u64);

impl Hasher for NameHasher {
    fn write(&mut self, bytes: &[u8]) {
        for &byte in bytes {
            self.0 = (self.0 ^ u64::from(byte)).wrapping_mul(0x0000_0100_0000_01b3);
        }
    }

    fn finish(&self) -> u64 {
        self.0 ^ (self.0 >> 32)
    }
}

#[derive(Default)]
struct Names<'a> {
    list: Vec<&'a [u8]>,
    numbers: HashMap<&'a [u8], u32, BuildHasherDefault<NameHasher>>,
}

impl<'a> Names<'a> {
    fn number(&mut self, name: &'a [u8]) -> u32 {
        let next = self.list.len() as u32;
        *self.numbers.entry(name).or_insert_with(|| {
            self.list.push(name);
            next
        })
    }
}

struct Parser<'a, W> {
    tokens: std::iter::Peekable<std::vec::IntoIter<Token<'a>>>,
    token_count: usize,
    watch: W,
    names: Names<'a>,
    literals: Vec<&'a [u8]>,
    path_names: Vec<u32>,
    expressions: u32,
    instructions: u32,
    codes: u32,
    /// The names from the program frame down to the innermost frame written outside any code.
    holder: Vec<u32>,
    in_code: bool,
    // what the numbers 7, 8, 10 and 12 ask
    outside_code: bool,
    bad_frame: bool,
    above_program: bool,
    written_frames: u32,
}

// Each function reads one form of the grammar; `None` says that the tokens do not have it.
impl<'a, W: Watch> Parser<'a, W> {
    fn new(tokens: Vec<Token<'a>>, watch: W) -> Parser<'a, W> {
        Parser {
            token_count: tokens.len(),
            tokens: tokens.into_iter().peekable(),
            watch,
            names: Names::default(),
            literals: Vec::new(),
            path_names: Vec::new(),
            expressions: 0,
            instructions: 0,
            codes: 0,
            holder: Vec::new(),
            in_code: false,
            outside_code: false,
            bad_frame: false,
            above_program: false,
            written_frames: 0,
        }
    }

    /// The number of the next token.
    fn at(&self) -> usize {
        self.token_count - self.tokens.size_hint().0
    }

    fn stop<T>(&mut self, at: usize, wanted: Wanted) -> Option<T> {
        self.watch.stops(at, wanted, self.in_code);
        None
    }

    /// The tokens from this one on have been read as a part.
    fn part_from(&mut self, part: Part, from: usize) {
        self.watch.part(part, from..self.at());
    }

    fn source(&mut self) -> Option<Vec<Slot>> {
        self.expect(Token::Frame, Wanted::Frame)?;
        let slots = self.frame()?;
        if self.tokens.peek().is_some() {
            return self.stop(self.at(), Wanted::End);
        }
        Some(slots)
    }

    fn expect(&mut self, token: Token<'a>, wanted: Wanted) -> Option<()> {
        if self.accept(token) {
            Some(())
        } else {
            self.stop(self.at(), wanted)
        }
    }

    fn accept(&mut self, token: Token<'a>) -> bool {
        self.tokens.next_if_eq(&token).is_some()
    }

    fn name(&mut self, wanted: Wanted) -> Option<u32> {
        let at = self.at();
        match self.tokens.next() {
            Some(Token::Name(name)) => Some(self.names.number(name)),
            _ => self.stop(at, wanted),
        }
    }

    /// A frame, from behind the word `frame` on.
    fn frame(&mut self) -> Option<Vec<Slot>> {
        self.watch.frame(self.at() - 1, self.in_code);
        self.expect(Token::Colon, Wanted::Colon)?;
        self.expect(Token::OpenSquare, Wanted::OpenSquare)?;
        if !self.in_code {
            self.written_frames += 1;
        }
        let mut slots = Vec::new();
        while !self.accept(Token::CloseSquare) {
            slots.push(self.slot()?);
            if !self.accept(Token::Comma) {
                self.expect(Token::CloseSquare, Wanted::NextSlot)?;
                break;
            }
        }
        self.bad_frame |= slots.len() > layout::MOST_SLOTS || has_name_twice(&slots);
        self.watch.frame_ends();
        Some(slots)
    }

    fn slot(&mut self) -> Option<Slot> {
        let at = self.at();
        let name = self.name(Wanted::Slot)?;
        self.watch.slot(at, name);
        self.expect(Token::Assign, Wanted::SlotAssign)?;
        // a frame written outside code is one level more; in code it adds none
        let level = !self.in_code && self.tokens.peek() == Some(&Token::Frame);
        if level {
            self.holder.push(name);
        }
        let value = self.expression()?;
        if level {
            self.holder.pop();
        }
        Some(Slot { name, value })
    }

    fn expression(&mut self) -> Option<Expression> {
        let from = self.at();
        self.expressions += 1;
        if self.accept(Token::Frame) {
            let slots = self.frame()?;
            self.part_from(Part::Expression, from);
            return Some(Expression::Frame(slots));
        }
        if self.accept(Token::Not) {
            self.only_in_code(from);
            let base = self.operand()?;
            self.part_from(Part::Expression, from);
            return Some(Expression::Not(base));
        }
        let first = self.base(Wanted::Expression)?;
        let at = self.at();
        self.part_from(Part::Expression, from);
        let Some(&Token::Operator(operator)) = self.tokens.peek() else {
            self.watch.passes(at, Wanted::Operator);
            return Some(Expression::Base(first));
        };
        self.tokens.next();
        self.only_in_code(at);
        self.expressions += 1;
        let second = self.operand()?;
        self.part_from(Part::Expression, from);
        Some(Expression::Operation(operator, first, second))
    }

    /// An operator or `!` has been read.
    fn only_in_code(&mut self, at: usize) {
        if !self.in_code {
            self.outside_code = true;
            self.watch.part(Part::OutsideCode, at..at + 1);
        }
    }

    fn operand(&mut self) -> Option<Base> {
        let from = self.at();
        self.expressions += 1;
        let base = self.base(Wanted::Base)?;
        self.part_from(Part::Expression, from);
        Some(base)
    }

    fn base(&mut self, wanted: Wanted) -> Option<Base> {
        let at = self.at();
        Some(match self.tokens.next() {
            Some(Token::Integer(n)) => Base::Integer(n),
            Some(Token::String(bytes)) => {
                self.literals.push(bytes);
                Base::Literal(self.literals.len() as u32 - 1)
            }
            Some(Token::SelfWord) => Base::Path(self.self_path()?),
            Some(Token::Up) => Base::Path(self.program_path()?),
            Some(Token::Code) => Base::Code(self.code()?),
            _ => return self.stop(at, wanted),
        })
    }

    /// A path, from behind the word `self` on. Load is measurably faster with it inlined.
    #[inline(always)]
    fn self_path(&mut self) -> Option<Path> {
        let from = self.at() - 1;
        let first = self.path_names.len() as u32;
        while self.accept(Token::Dot) {
            let name = self.name(Wanted::PathName)?;
            self.path_names.push(name);
        }
        Some(self.path_from(Root::SelfValue, first, from))
    }

    /// A path, from behind its first `^` on. It becomes the list of names from the program frame down.
    fn program_path(&mut self) -> Option<Path> {
        let from = self.at() - 1;
        let first = self.path_names.len() as u32;
        let mut further = 0;
        let mut dot = self.accept(Token::Dot);
        while dot && self.accept(Token::Up) {
            further += 1;
            dot = self.accept(Token::Dot);
        }
        if further > self.holder.len() {
            self.above_program = true;
            self.watch.part(Part::AboveProgram(1 + self.holder.len()), from..from + 1 + 2 * further);
        }
        let levels = self.holder.len().saturating_sub(further);
        self.path_names.extend_from_slice(&self.holder[..levels]);
        let mut wanted = Wanted::UpOrName;
        while dot {
            let name = self.name(wanted)?;
            self.path_names.push(name);
            wanted = Wanted::PathName;
            dot = self.accept(Token::Dot);
        }
        Some(self.path_from(Root::Program, first, from))
    }

    fn path_from(&mut self, root: Root, first: u32, from: usize) -> Path {
        let tokens = from..self.at();
        self.watch.passes(tokens.end, Wanted::Dot);
        self.watch.part(Part::Path(self.path_names.len()), tokens.clone());
        if !self.in_code {
            self.outside_code = true;
            self.watch.part(Part::OutsideCode, tokens);
        }
        Path { root, first, count: self.path_names.len() as u32 - first }
    }

    /// A code literal, from behind the word `code` on.
    fn code(&mut self) -> Option<Code> {
        let from = self.at() - 1;
        self.expect(Token::OpenCurly, Wanted::OpenCurly)?;
        let number = self.codes;
        self.codes += 1;
        let outer = std::mem::replace(&mut self.in_code, true);
        let mut instructions = Vec::new();
        while !self.accept(Token::CloseCurly) {
            let from = self.at();
            self.instructions += 1;
            instructions.push(self.instruction()?);
            self.expect(Token::Semicolon, Wanted::Semicolon)?;
            self.part_from(Part::Instruction, from);
        }
        self.in_code = outer;
        self.part_from(Part::Code, from);
        Some(Code { number, instructions })
    }

    fn instruction(&mut self) -> Option<Instruction> {
        let from = self.at();
        Some(match self.tokens.next() {
            Some(Token::Show) => Instruction::Show(self.operand()?),
            Some(Token::Jump) => Instruction::Jump(self.operand()?, self.operand()?),
            Some(Token::Ifeq) => Instruction::Ifeq(self.operand()?, self.operand()?, self.operand()?),
            Some(Token::SelfWord) => {
                let path = self.self_path()?;
                self.assign(path, from)?
            }
            Some(Token::Up) => {
                let path = self.program_path()?;
                self.assign(path, from)?
            }
            _ => return self.stop(from, Wanted::Instruction),
        })
    }

    fn assign(&mut self, path: Path, from: usize) -> Option<Instruction> {
        self.part_from(Part::Target, from);
        self.expect(Token::Assign, Wanted::Assign)?;
        Some(Instruction::Assign(path, self.expression()?))
    }

    /// The numbers 7 to 12 over a source that is one frame.
    fn judge(mut self, slots: Vec<Slot>, frame_limit: u32) -> Result<Source<'a>, Refusal> {
        let above_limit = self.names.list.len() > layout::MOST_NAMES as usize
            || self.literals.len() > layout::MOST_LITERALS as usize
            || self.path_names.len() > layout::MOST_PATH_NAMES as usize
            || self.instructions > layout::MOST_INSTRUCTIONS
            || self.codes > layout::MOST_CODES
            || self.expressions > layout::MOST_EXPRESSIONS;
        if self.outside_code {
            return Err(Refusal(7));
        }
        if self.bad_frame {
            return Err(Refusal(8));
        }
        if above_limit {
            return Err(Refusal(9));
        }
        if self.above_program {
            return Err(Refusal(10));
        }
        let start = self.main_start(&slots).ok_or(Refusal(11))?;
        if self.written_frames >= frame_limit {
            return Err(Refusal(12));
        }
        Ok(Source {
            slots,
            names: std::mem::take(&mut self.names.list),
            literals: self.literals,
            path_names: self.path_names,
            expressions: self.expressions,
            instructions: self.instructions,
            codes: self.codes,
            start,
        })
    }

    /// The number of the code in the slot start of the written frame in the slot Main.
    fn main_start(&self, slots: &[Slot]) -> Option<u32> {
        let slot_of = |name: &[u8], slots: &'_ [Slot]| {
            let number = *self.names.numbers.get(name)?;
            slots.iter().position(|slot| slot.name == number)
        };
        let Expression::Frame(main) = &slots[slot_of(b"Main", slots)?].value else {
            return None;
        };
        match &main[slot_of(b"start", main)?].value {
            Expression::Base(Base::Code(code)) => Some(code.number),
            _ => None,
        }
    }
}

fn has_name_twice(slots: &[Slot]) -> bool {
    slots.len() <= layout::MOST_SLOTS
        && slots.iter().enumerate().any(|(i, slot)| slots[..i].iter().any(|earlier| earlier.name == slot.name))
}
