//! Look: the value at the end of a path text, and its companion, the bytes of a text.
use super::heap::{self, Value};
use super::layout::{self, Program};
use super::token::{Token, Tokens};
use super::{whole, NOT_WHOLE};
use crate::{Found, Refusal};

const NOT_PATH: Refusal = Refusal(21);
const UNDEFINED: Refusal = Refusal(22);

/// What stands at the end of a path, `self` or one `^` with names.
pub fn look(
    program: &[u32],
    heap: &[u32],
    literals: &[u8],
    texts: &[u8],
    path: &[u8],
) -> Result<Found, Refusal> {
    Ok(match value_at(program, heap, literals, texts, path)? {
        Value::Integer(n) => Found::Integer(n),
        Value::Literal(_) | Value::Made(_) => Found::Text,
        Value::Code(_) => Found::Code,
        Value::Frame(f) => Found::Frame(heap[heap::frame(f) + heap::MAKER]),
    })
}

/// The bytes of the text at the end of a path, as a part of the literal bytes or of the text bytes; none for another
/// kind or a refusal.
pub fn look_text<'a>(
    program: &[u32],
    heap: &[u32],
    literals: &'a [u8],
    texts: &'a [u8],
    path: &[u8],
) -> &'a [u8] {
    match value_at(program, heap, literals, texts, path) {
        Ok(Value::Literal(k)) => {
            let length = program[layout::literal_length(k)] as usize;
            &literals[layout::text(k)..][..length]
        }
        Ok(Value::Made(k)) => {
            let length = heap[heap::text(k)] as usize - 1;
            &texts[layout::text(k)..][..length]
        }
        _ => &[],
    }
}

fn value_at(
    program: &[u32],
    heap: &[u32],
    literals: &[u8],
    texts: &[u8],
    path: &[u8],
) -> Result<Value, Refusal> {
    let (program, _) = whole::program(program, literals).ok_or(NOT_WHOLE)?;
    let (heap, _) = whole::state(program, heap, texts).ok_or(NOT_WHOLE)?;
    let (root, names) = read_path(path).ok_or(NOT_PATH)?;
    let names: Vec<u32> =
        names.iter().map(|name| number_of(program, name)).collect::<Option<_>>().ok_or(UNDEFINED)?;
    heap::fetch(heap, Value::read(heap, root), &names).ok_or(UNDEFINED)
}

/// Where a path text starts, and its names.
fn read_path(path: &[u8]) -> Option<(usize, Vec<&[u8]>)> {
    let mut tokens = Tokens::new(path);
    let root = match tokens.next()?.ok()? {
        Token::SelfWord => heap::SELF,
        Token::Up => heap::PROGRAM,
        _ => return None,
    };
    let mut names = Vec::new();
    while let Some(token) = tokens.next() {
        let (Ok(Token::Dot), Some(Ok(Token::Name(name)))) = (token, tokens.next()) else {
            return None;
        };
        names.push(name);
    }
    Some((root, names))
}

fn number_of(program: &Program, name: &[u8]) -> Option<u32> {
    (0..program[layout::NAMES]).find(|&k| {
        let at = layout::name(k);
        program[at] as usize == name.len()
            && program[at + 1..].iter().zip(name).all(|(&word, &byte)| word == u32::from(byte))
    })
}
