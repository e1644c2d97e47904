//! What the plain reader tells of a source.
use crate::plain::parse::{Part, Wanted, Watch};
use crate::plain::token::{placed, Token};
use std::cmp::Reverse;
use std::ops::Range;

/// The tokens of a source with their bytes.
pub struct Text<'a> {
    pub source: &'a [u8],
    pub tokens: Vec<(Range<usize>, Token<'a>)>,
}

impl<'a> Text<'a> {
    /// Where some bytes form no token, the first of them.
    pub fn read(source: &'a [u8]) -> Result<Text<'a>, usize> {
        let tokens = placed(source)
            .map(|(bytes, token)| token.map(|token| (bytes.clone(), token)).map_err(|_| bytes.start))
            .collect::<Result<_, _>>()?;
        Ok(Text { source, tokens })
    }

    pub fn token(&self, token: usize) -> Option<Token<'a>> {
        self.tokens.get(token).map(|&(_, token)| token)
    }

    /// The byte at which a token begins; the end of the source behind the last.
    pub fn at(&self, token: usize) -> usize {
        self.tokens.get(token).map_or(self.source.len(), |(bytes, _)| bytes.start)
    }

    /// The bytes of some tokens, from the first to the last.
    pub fn bytes(&self, tokens: &Range<usize>) -> Range<usize> {
        let last = tokens.end.checked_sub(1).and_then(|last| self.tokens.get(last));
        self.at(tokens.start)..last.map_or(self.source.len(), |(bytes, _)| bytes.end)
    }

    /// The bytes of some tokens without the spaces between them.
    pub fn written(&self, tokens: &Range<usize>) -> Vec<u8> {
        let tokens = self.tokens.get(tokens.clone()).unwrap_or_default();
        tokens.iter().flat_map(|(bytes, _)| &self.source[bytes.clone()]).copied().collect()
    }
}

/// The record of a reading, by numbers of tokens. Parts stand in the order of their ends.
#[derive(Default)]
pub struct Seen {
    expressions: Vec<Range<usize>>,
    instructions: Vec<Range<usize>>,
    codes: Vec<Range<usize>>,
    targets: Vec<Range<usize>>,
    /// Paths, each with the names that all paths up to it have.
    pub paths: Vec<(Range<usize>, usize)>,
    pub outside_code: Option<Range<usize>>,
    /// The `^` of a path that has too many, and how many it could have.
    pub above_program: Option<(Range<usize>, usize)>,
    pub frames: Vec<Frame>,
    /// The frames that are not yet read to their end.
    open: Vec<usize>,
    passed: Vec<(usize, Wanted)>,
    pub stop: Option<Stopped>,
}

pub struct Frame {
    pub at: usize,
    pub in_code: bool,
    /// Where each slot begins, and the number of its name.
    pub slots: Vec<(usize, u32)>,
}

/// Where the tokens stop being one frame.
#[derive(Clone, Copy)]
pub struct Stopped {
    pub at: usize,
    pub wanted: Wanted,
    pub in_code: bool,
}

impl Watch for &mut Seen {
    fn part(&mut self, part: Part, tokens: Range<usize>) {
        match part {
            Part::Expression => self.expressions.push(tokens),
            Part::Instruction => self.instructions.push(tokens),
            Part::Target => self.targets.push(tokens),
            Part::Code => self.codes.push(tokens),
            Part::Path(names) => self.paths.push((tokens, names)),
            Part::OutsideCode => {
                self.outside_code.get_or_insert(tokens);
            }
            Part::AboveProgram(most) => {
                self.above_program.get_or_insert((tokens, most));
            }
        }
    }

    fn frame(&mut self, at: usize, in_code: bool) {
        self.open.push(self.frames.len());
        self.frames.push(Frame { at, in_code, slots: Vec::new() });
    }

    fn slot(&mut self, at: usize, name: u32) {
        if let Some(&frame) = self.open.last() {
            self.frames[frame].slots.push((at, name));
        }
    }

    fn frame_ends(&mut self) {
        self.open.pop();
    }

    fn passes(&mut self, at: usize, wanted: Wanted) {
        self.passed.push((at, wanted));
    }

    fn stops(&mut self, at: usize, wanted: Wanted, in_code: bool) {
        self.stop = Some(Stopped { at, wanted, in_code });
    }
}

impl Seen {
    pub fn expressions(&self) -> Vec<Range<usize>> {
        by_begin(&self.expressions)
    }

    pub fn instructions(&self) -> Vec<Range<usize>> {
        by_begin(&self.instructions)
    }

    pub fn codes(&self) -> Vec<Range<usize>> {
        by_begin(&self.codes)
    }

    /// The target of an instruction that assigns: both begin at the same token.
    pub fn target(&self, instruction: &Range<usize>) -> Option<&Range<usize>> {
        self.targets.iter().find(|path| path.start == instruction.start)
    }

    /// What could have stood at this token beside what was wanted there last.
    pub fn passed(&self, at: usize) -> impl Iterator<Item = Wanted> + '_ {
        self.passed.iter().filter(move |(passed, _)| *passed == at).map(|&(_, wanted)| wanted)
    }
}

/// Parts by their numbers: each by where it begins, and a whole before its first operand.
fn by_begin(parts: &[Range<usize>]) -> Vec<Range<usize>> {
    let mut parts = parts.to_vec();
    parts.sort_by_key(|tokens| (tokens.start, Reverse(tokens.end)));
    parts
}
