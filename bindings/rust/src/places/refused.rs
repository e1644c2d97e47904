//! What load refuses, and where.
use super::place;
use super::seen::{Frame, Seen, Stopped, Text};
use super::words::{counted, either, quoted};
use crate::plain::layout;
use crate::plain::parse::{parse_watched, Wanted, MOST_NESTING};
use crate::plain::token::{in_string, Operator, Token, NAME_BYTES, STRING_BYTES};
use crate::{Refusal, SOURCE_BYTES};
use std::collections::HashSet;

/// A refusal of load.
#[derive(Clone, Debug, PartialEq, Eq)]
pub struct Refused {
    pub number: u32,
    /// The byte of the source, or its end; none for number 2.
    pub at: Option<usize>,
    /// In words what was expected and what was found.
    pub detail: String,
}

/// What load refuses with the limits F (`frames`) and T (`texts`) over memories of the right lengths, and where; none
/// where the source loads.
pub fn refused(source: &[u8], frames: u32, texts: u32) -> Option<Refused> {
    if let Some(refused) = argument(source, frames, texts) {
        return Some(refused);
    }
    let mut seen = Seen::default();
    let Refusal(number) = parse_watched(source, frames, &mut seen).err()?;
    let text = match Text::read(source) {
        Ok(text) => text,
        Err(at) => {
            let (at, detail) = no_token(source, at);
            return Some(Refused { number, at: Some(at), detail });
        }
    };
    let (token, detail) = Reading { text: &text, seen: &seen }.fault(number, frames).unwrap_or_default();
    Some(Refused { number, at: Some(text.at(token)), detail })
}

/// The numbers 2 and 3.
pub fn argument(source: &[u8], frames: u32, texts: u32) -> Option<Refused> {
    let mut ranges = Vec::new();
    if !(3..=layout::MOST_FRAMES).contains(&frames) {
        ranges.push(format!("F is {frames}, its range is 3 to {}", layout::MOST_FRAMES));
    }
    if texts > layout::MOST_TEXTS {
        ranges.push(format!("T is {texts}, its range is 0 to {}", layout::MOST_TEXTS));
    }
    if !ranges.is_empty() {
        return Some(Refused { number: 2, at: None, detail: ranges.join("; ") });
    }
    (source.len() > SOURCE_BYTES).then(|| Refused {
        number: 3,
        at: Some(SOURCE_BYTES),
        detail: format!("the source has {} bytes, {SOURCE_BYTES} are the most", source.len()),
    })
}

/// Why the bytes from `at` on form no token, and the byte at which that is seen.
pub(crate) fn no_token(source: &[u8], at: usize) -> (usize, String) {
    let rest = &source[at..];
    let detail = match rest {
        [b'A'..=b'Z' | b'a'..=b'z' | b'_', ..] => {
            let length = rest.iter().take_while(|&&byte| byte.is_ascii_alphanumeric() || byte == b'_').count();
            format!("a name of {length} bytes where {NAME_BYTES} is the most")
        }
        [b'-', digits @ ..] | digits @ [b'0'..=b'9', ..] => {
            let length = digits.iter().take_while(|byte| byte.is_ascii_digit()).count();
            let integer = quoted(&rest[..rest.len() - digits.len() + length]);
            format!("the integer {integer} is out of range, {} to {}", i32::MIN, i32::MAX)
        }
        [b'"', string @ ..] => return no_string(string, at),
        [b'=', ..] => lone_equals(&source[..at]),
        [byte @ (b'&' | b'|'), ..] => {
            let mark = char::from(*byte);
            format!("a lone `{mark}`; `{mark}{mark}` is a token")
        }
        [b'\\', ..] => "byte 92 `\\` begins no token, and strings have no escapes".into(),
        _ => no_first(rest),
    };
    (at, detail)
}

/// A `=` that belongs to no token, behind these bytes.
fn lone_equals(before: &[u8]) -> String {
    let tokens = "`:=` and `==` are tokens";
    match before.last() {
        Some(mark @ (b'!' | b'<' | b'+' | b'-' | b'*' | b'/')) => {
            format!("a lone `=`; {tokens}, and `{}=` is none", char::from(*mark))
        }
        _ => format!("a lone `=`; {tokens}"),
    }
}

/// Bytes of which the first begins no token. A character of more than one byte is named, since some cannot be seen.
fn no_first(rest: &[u8]) -> String {
    let Some(&byte) = rest.first() else { return String::new() };
    let front = &rest[..rest.len().min(4)];
    let character = front.utf8_chunks().next().and_then(|chunk| chunk.valid().chars().next());
    match character {
        Some(c) if c.is_ascii_graphic() => format!("byte {byte} `{c}` begins no token"),
        Some('\u{feff}') => "byte 239 begins no token: a byte order mark".into(),
        Some('\u{a0}') => "byte 194 begins no token: a no-break space".into(),
        Some(c) if !c.is_ascii() => format!("byte {byte} begins no token: the character U+{:04X}", u32::from(c)),
        _ => format!("byte {byte} begins no token"),
    }
}

/// Why the bytes behind the `"` at this place are no string. A byte that may not stand in one is the place itself.
fn no_string(string: &[u8], at: usize) -> (usize, String) {
    let length = string.iter().position(|&byte| !in_string(byte)).unwrap_or(string.len());
    match string.get(length) {
        Some(b'"') => (at, format!("a string of {length} bytes where {STRING_BYTES} is the most")),
        None => (at, "a string that is not closed".into()),
        Some(b'\n' | b'\r') => (at, "a string that is not closed on its line".into()),
        Some(byte) => (at + 1 + length, format!("byte {byte} in a string, where only 32 to 126 may stand")),
    }
}

/// A token and what is wrong there.
type Fault = Option<(usize, String)>;

struct Reading<'a> {
    text: &'a Text<'a>,
    seen: &'a Seen,
}

impl Reading<'_> {
    fn fault(&self, number: u32, frames: u32) -> Fault {
        match number {
            5 => self.nesting(),
            6 => self.seen.stop.map(|stop| (stop.at, self.unexpected(stop))),
            7 => self.outside_code(),
            8 => self.bad_frame(),
            9 => self.above_limit(),
            10 => self.above_program(),
            11 => self.no_start(),
            12 => self.written_frames(frames),
            _ => None,
        }
    }

    fn written(&self, token: usize) -> String {
        quoted(&self.text.written(&(token..token + 1)))
    }

    fn nesting(&self) -> Fault {
        let mut open = 0u32;
        let at = self.text.tokens.iter().position(|(_, token)| {
            match token {
                Token::OpenSquare | Token::OpenCurly => open += 1,
                Token::CloseSquare | Token::CloseCurly => open = open.saturating_sub(1),
                _ => {}
            }
            open > MOST_NESTING
        })?;
        Some((at, format!("{} is the 17th open bracket, {MOST_NESTING} are the most", self.written(at))))
    }

    fn unexpected(&self, stop: Stopped) -> String {
        let found = self.found(stop);
        if stop.wanted == Wanted::SlotAssign {
            let name = self.written(stop.at.saturating_sub(1));
            return format!("expected `:=` behind the name {name}, found {found}");
        }
        // where a whole operand is missing, that the one before could go on is of no use
        let mut words = Vec::new();
        if !matches!(stop.wanted, Wanted::Base | Wanted::Expression) {
            for wanted in self.seen.passed(stop.at) {
                if wanted != Wanted::Operator || stop.in_code {
                    words.extend(words_for(wanted, stop.in_code));
                }
            }
        }
        words.extend(words_for(stop.wanted, stop.in_code));
        format!("expected {}{}, found {found}{}", either(&words), self.behind(stop), self.hint(stop))
    }

    /// Where something that closes or parts is missing at the end of a line, what it should stand behind: the place is that
    /// of the next token.
    fn behind(&self, stop: Stopped) -> String {
        let Some(last) = stop.at.checked_sub(1) else { return String::new() };
        let [before, here] = [last, stop.at].map(|token| place(self.text.source, self.text.at(token)));
        match stop.wanted {
            Wanted::Semicolon | Wanted::NextSlot if before.line < here.line && self.text.token(stop.at).is_some() => {
                format!(" behind {} at {}:{}", self.written(last), before.line, before.column)
            }
            _ => String::new(),
        }
    }

    /// What a newcomer may have meant.
    fn hint(&self, stop: Stopped) -> String {
        let operator = self.seen.passed(stop.at).any(|wanted| wanted == Wanted::Operator) && stop.in_code;
        match self.text.token(stop.at) {
            None => self.open_bracket(),
            Some(Token::Integer(n)) if n < 0 && operator => "; a difference has a space behind its `-`".into(),
            Some(Token::Operator(Operator::Over | Operator::Join)) => "; comments begin with `//`".into(),
            Some(Token::Semicolon) if stop.wanted == Wanted::Base => self.operands(stop.at).into(),
            _ => String::new(),
        }
    }

    /// How many operands the instruction has that ends at this token.
    fn operands(&self, end: usize) -> &'static str {
        let word = (0..end).rev().find_map(|at| match self.text.token(at)? {
            word @ (Token::Show | Token::Jump | Token::Ifeq | Token::Assign) => Some(word),
            _ => None,
        });
        match word {
            Some(Token::Jump) => "; `jump` has two operands, a code and what becomes self",
            Some(Token::Ifeq) => "; `ifeq` has three operands, a value, a code and what becomes self",
            _ => "",
        }
    }

    /// The innermost bracket that the source does not close.
    fn open_bracket(&self) -> String {
        let mut open = Vec::new();
        for (at, (_, token)) in self.text.tokens.iter().enumerate() {
            match token {
                Token::OpenSquare | Token::OpenCurly => open.push(at),
                Token::CloseSquare | Token::CloseCurly => drop(open.pop()),
                _ => {}
            }
        }
        open.last().map_or(String::new(), |&at| {
            let place = place(self.text.source, self.text.at(at));
            format!("; {} at {}:{} is open", self.written(at), place.line, place.column)
        })
    }

    fn found(&self, stop: Stopped) -> String {
        let written = self.written(stop.at);
        let name_wanted = matches!(stop.wanted, Wanted::Slot | Wanted::PathName | Wanted::UpOrName);
        match self.text.token(stop.at) {
            None => "the end of the source".into(),
            Some(Token::Integer(_)) => format!("the integer {written}"),
            Some(
                Token::Frame | Token::Code | Token::SelfWord | Token::Show | Token::Jump | Token::Ifeq,
            ) if name_wanted => format!("the reserved word {written}"),
            Some(_) => written,
        }
    }

    fn outside_code(&self) -> Fault {
        let tokens = self.seen.outside_code.as_ref()?;
        let what = match self.text.token(tokens.start)? {
            Token::Operator(_) => "the operator ",
            Token::Not => "",
            _ => "the path ",
        };
        Some((tokens.start, format!("{what}{} stands outside code", quoted(&self.text.written(tokens)))))
    }

    fn bad_frame(&self) -> Fault {
        let (at, seventeenth) = self.seen.frames.iter().filter_map(bad_slot).min()?;
        let name = self.written(at);
        let detail = if seventeenth {
            format!("{name} is the 17th slot of its frame, {} are the most", layout::MOST_SLOTS)
        } else {
            format!("{name} is a slot of the same frame already")
        };
        Some((at, detail))
    }

    /// The count that is above its limit first.
    fn above_limit(&self) -> Fault {
        let past = |places: Vec<usize>, most: u32, what: &str| {
            let at = *places.get(most as usize)?;
            Some((at, format!("the {}th {what}, {most} are the most", most + 1)))
        };
        let starts = |parts: Vec<std::ops::Range<usize>>| parts.into_iter().map(|tokens| tokens.start).collect();
        [
            past(self.distinct_names(), layout::MOST_NAMES, "distinct name"),
            past(self.strings(), layout::MOST_LITERALS, "string"),
            past(starts(self.seen.expressions()), layout::MOST_EXPRESSIONS, "expression"),
            past(starts(self.seen.instructions()), layout::MOST_INSTRUCTIONS, "instruction"),
            past(starts(self.seen.codes()), layout::MOST_CODES, "code"),
            self.path_names(),
        ]
        .into_iter()
        .flatten()
        .min_by_key(|&(at, _)| at)
    }

    /// Where each distinct name stands first. In a source that is one frame every name is one of a slot or in a path.
    fn distinct_names(&self) -> Vec<usize> {
        let mut names = HashSet::new();
        self.tokens_that(|token| matches!(token, Token::Name(name) if names.insert(*name)))
    }

    fn strings(&self) -> Vec<usize> {
        self.tokens_that(|token| matches!(token, Token::String(_)))
    }

    fn tokens_that<'b>(&'b self, mut test: impl FnMut(&Token<'b>) -> bool) -> Vec<usize> {
        let tokens = self.text.tokens.iter().enumerate();
        tokens.filter(|(_, (_, token))| test(token)).map(|(at, _)| at).collect()
    }

    fn path_names(&self) -> Fault {
        let most = layout::MOST_PATH_NAMES;
        let (path, names) = self.seen.paths.iter().find(|(_, names)| *names > most as usize)?;
        Some((path.start, format!("the resolved paths up to this one have {names} names, {most} are the most")))
    }

    fn above_program(&self) -> Fault {
        let (ups, most) = self.seen.above_program.as_ref()?;
        let written = quoted(&self.text.written(ups));
        let count = ups.len().div_ceil(2);
        Some((ups.start, format!("{written} goes up {count} frames, and its code stands in {most}")))
    }

    fn no_start(&self) -> Fault {
        let outer = self.seen.frames.first()?;
        let Some(main) = self.slot(outer, b"Main") else {
            return Some((outer.at, "no slot `Main` in the program frame".into()));
        };
        // a value stands behind the name and `:=`
        let Some(frame) = self.seen.frames.iter().find(|frame| frame.at == main + 2) else {
            return Some((main, "`Main` is not a frame".into()));
        };
        match self.slot(frame, b"start") {
            None => Some((frame.at, "no slot `start` in the frame `Main`".into())),
            Some(start) => Some((start, "`start` of `Main` is not a code".into())),
        }
    }

    fn slot(&self, frame: &Frame, name: &[u8]) -> Option<usize> {
        frame.slots.iter().map(|&(at, _)| at).find(|&at| self.text.token(at) == Some(Token::Name(name)))
    }

    fn written_frames(&self, limit: u32) -> Fault {
        let outside: Vec<_> = self.seen.frames.iter().filter(|frame| !frame.in_code).collect();
        let at = outside.get((limit as usize).checked_sub(1)?)?.at;
        let count = counted(outside.len(), "frame");
        let least = 1 + outside.len();
        Some((at, format!("{count} written outside code and one for self; F is {limit}, {least} is the least")))
    }
}

/// The first slot that has the name of an earlier one or is the 17th, and whether it is the 17th.
fn bad_slot(frame: &Frame) -> Option<(usize, bool)> {
    let slots = &frame.slots;
    let i = (0..slots.len())
        .find(|&i| i == layout::MOST_SLOTS || slots[..i].iter().any(|earlier| earlier.1 == slots[i].1))?;
    Some((slots[i].0, i == layout::MOST_SLOTS))
}

/// What may stand where something is wanted. Outside code that is less: the rest would be refused with 7.
fn words_for(wanted: Wanted, in_code: bool) -> &'static [&'static str] {
    match wanted {
        Wanted::Frame => &["`frame`"],
        Wanted::Colon => &["`:`"],
        Wanted::OpenSquare => &["`[`"],
        Wanted::OpenCurly => &["`{`"],
        Wanted::Slot => &["a name", "`]`"],
        Wanted::NextSlot => &["`,`", "`]`"],
        Wanted::SlotAssign | Wanted::Assign => &["`:=`"],
        Wanted::Expression if in_code => &["an integer", "a string", "a path", "`code`", "`frame`", "`!`"],
        Wanted::Expression => &["an integer", "a string", "`code`", "`frame`"],
        Wanted::Base => &["an integer", "a string", "a path", "`code`"],
        Wanted::Operator => &["an operator"],
        Wanted::Instruction => &["a path", "`show`", "`jump`", "`ifeq`", "`}`"],
        Wanted::Semicolon => &["`;`"],
        Wanted::Dot => &["`.`"],
        Wanted::PathName => &["a name"],
        Wanted::UpOrName => &["`^`", "a name"],
        Wanted::End => &["the end of the source"],
    }
}
