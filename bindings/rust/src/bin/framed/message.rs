//! A refusal or an end in words, with its place in the source.
use framed::places::{self, Ended, Places};
use framed::{End, Found, Memories, Refusal};
use std::ops::Range;

/// How many characters of an instruction are printed.
const TEXT: usize = 100;
/// How many bytes of a source line are printed, and how many of them before a far caret.
const LINE: usize = 120;
const BEFORE: usize = 60;

/// As `a.framed:3:9: refused 6: the tokens are not one frame: DETAIL`, and the source line with a caret under it. The
/// number is the library's: where the place found is of another one, it has no place.
pub fn refused(label: &str, source: &[u8], frames: u32, texts: u32, refusal: Refusal) -> String {
    let found = places::refused(source, frames, texts).filter(|found| found.number == refusal.0);
    let Some(found) = found else { return format!("{label}: {refusal}") };
    let Some(at) = found.at else { return format!("{label}: {refusal}{}", behind(&found.detail)) };
    let at = at.min(source.len());
    // of a source that is too long only the front was read: what is said of its length is of no use
    let detail = if refusal.0 == 3 { String::new() } else { behind(&found.detail) };
    format!("{label}:{}: {refusal}{detail}{}", place(source, at), excerpt(source, at))
}

/// As `a.framed:3:9: end 32: divisor 0`, the instruction, and what is wrong with it, where the memories stand that a
/// source with this F has come to.
pub fn ended(label: &str, source: &[u8], frames: u32, memories: &Memories, end: End) -> String {
    placed_end(source, frames, memories, end).map_or_else(
        || format!("{label}: {end}"),
        |(instruction, why)| {
            let place = place(source, instruction.start);
            let text = one_line(&source[instruction]);
            format!("{label}:{place}: {end}\n  {text}{why}")
        },
    )
}

/// Where the instruction stands that gave the end, and a line with what is wrong. The number is the library's: where
/// the one found is another, there is no place.
fn placed_end(source: &[u8], frames: u32, memories: &Memories, end: End) -> Option<(Range<usize>, String)> {
    let places = places::places(source, frames).ok()?;
    let ended = places::ended(memories, &places, source)?;
    let instruction = places.instructions.get(ended.instruction as usize)?.clone();
    let why = match &ended.operand {
        Some(range) => at_fault(&ended, range, &places, source),
        None if ended.detail.is_empty() => String::new(),
        None => format!("\n  {}", ended.detail),
    };
    (ended.number == end as u32).then_some((instruction, why))
}

/// As `operand `self.b` (6:17): no slot `b` in self`.
fn at_fault(ended: &Ended, range: &Range<usize>, places: &Places, source: &[u8]) -> String {
    let target = places.targets.get(ended.instruction as usize).and_then(Option::as_ref);
    let part = match End::from_number(ended.number) {
        Some(End::IntegerRange | End::TextLength) => "operation",
        _ if target == Some(range) => "target",
        _ => "operand",
    };
    let (text, place) = (one_line(&source[range.clone()]), place(source, range.start));
    // the path need not stand twice
    let detail = ended.detail.strip_prefix(&format!("`{text}`: ")).unwrap_or(&ended.detail);
    format!("\n  {part} `{text}` ({place}){}", behind(detail))
}

/// Why a look was refused: what a path is, or where it leads no further. Empty where there is no more to say.
pub fn why_not_found(look: impl Fn(&[u8]) -> Result<Found, Refusal>, path: &[u8], refusal: Refusal) -> String {
    match refusal {
        Refusal(21) => ": a path is `self` or one `^`, the program, then names: self.faults, ^.table".to_owned(),
        Refusal(22) => nowhere(look, path).map_or(String::new(), |why| format!(": {why}")),
        _ => String::new(),
    }
}

/// The first part of a path that leads nowhere.
fn nowhere(look: impl Fn(&[u8]) -> Result<Found, Refusal>, path: &[u8]) -> Option<String> {
    let dots = (0..path.len()).filter(|&at| path[at] == b'.').chain([path.len()]);
    let mut front: &[u8] = &[];
    for end in dots {
        let (part, text) = (&path[..end], String::from_utf8_lossy(front));
        match look(part) {
            Ok(Found::Frame(_)) => front = part,
            Ok(found) => return Some(format!("`{}` is {}", String::from_utf8_lossy(part), kind(found))),
            Err(Refusal(22)) => {
                let name = part.get(front.len() + 1..)?;
                return Some(format!("no slot `{}` in {text}", String::from_utf8_lossy(name)));
            }
            Err(_) => return None,
        }
    }
    None
}

fn kind(found: Found) -> &'static str {
    match found {
        Found::Integer(_) => "an integer and not a frame",
        Found::Text => "a text and not a frame",
        Found::Code => "a code and not a frame",
        Found::Frame(_) => "a frame",
    }
}

/// As `3:9`.
pub fn place(source: &[u8], at: usize) -> String {
    let place = places::place(source, at);
    format!("{}:{}", place.line, place.column)
}

/// As `code at 3:9`, where the code literal stands.
pub fn code(places: &Places, source: &[u8], number: u32) -> String {
    match places.codes.get(number as usize) {
        Some(range) => format!("code at {}", place(source, range.start)),
        None => "code".to_owned(),
    }
}

fn behind(detail: &str) -> String {
    if detail.is_empty() {
        String::new()
    } else {
        format!(": {detail}")
    }
}

/// A part of a source that loads, on one line: each run of spaces and comments outside strings is one space.
pub fn one_line(bytes: &[u8]) -> String {
    let mut line = String::new();
    let mut rest = bytes;
    while let Some(&byte) = rest.first() {
        let length = match byte {
            b'"' => 2 + rest[1..].iter().take_while(|&&byte| byte != b'"').count(),
            b'/' if rest.starts_with(b"//") => rest.iter().take_while(|&&byte| byte != b'\n').count(),
            _ => 1,
        };
        let (part, after) = rest.split_at(length.min(rest.len()));
        if part.len() > 1 && byte == b'/' || byte.is_ascii_whitespace() {
            if !line.ends_with(' ') {
                line.push(' ');
            }
        } else {
            line.push_str(&String::from_utf8_lossy(part));
        }
        rest = after;
    }
    cut(line.trim())
}

fn cut(line: &str) -> String {
    if line.chars().count() <= TEXT {
        return line.to_owned();
    }
    let front: String = line.chars().take(TEXT - 3).collect();
    format!("{} ..", front.trim_end())
}

/// The line of a place, and a line with a caret under the place; of a long line the part around it. Nothing for a line
/// of spaces.
fn excerpt(source: &[u8], at: usize) -> String {
    let (before, behind) = source.split_at(at);
    let begin = before.iter().rposition(|&byte| byte == b'\n').map_or(0, |line_end| line_end + 1);
    let end = at + behind.iter().position(|&byte| byte == b'\n').unwrap_or(behind.len());
    if source[begin..end].trim_ascii().is_empty() {
        return String::new();
    }
    let from = if at - begin < LINE { begin } else { at - BEFORE };
    let to = end.min(from + LINE);
    let front = if from > begin { ".. " } else { "" };
    let back = if to < end { " .." } else { "" };
    let line = visible(source[from..to].trim_ascii_end());
    let caret: String = visible(&source[from..at]).chars().map(|c| if c == '\t' { '\t' } else { ' ' }).collect();
    let gap = " ".repeat(front.len());
    format!("\n  {front}{line}{back}\n  {gap}{caret}^")
}

/// Bytes of a source as they may be printed: tabs are kept, and other control bytes are a `?`.
fn visible(bytes: &[u8]) -> String {
    let text = String::from_utf8_lossy(bytes);
    text.chars().map(|c| if c.is_control() && c != '\t' { '?' } else { c }).collect()
}
