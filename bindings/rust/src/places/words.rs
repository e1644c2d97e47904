//! Words for what is found in a source or in the memories.
use crate::plain::heap::Value;

/// As many bytes of a source or a path are shown.
const MOST_SHOWN: usize = 70;

/// Bytes that are not too many to be read; of more the front.
pub fn short(bytes: &[u8]) -> String {
    match bytes.get(..MOST_SHOWN) {
        Some(front) if front.len() < bytes.len() => format!("{}..", String::from_utf8_lossy(front)),
        _ => String::from_utf8_lossy(bytes).into(),
    }
}

/// The same between two back quotes.
pub fn quoted(bytes: &[u8]) -> String {
    format!("`{}`", short(bytes))
}

/// As `a, b or c`.
pub fn either(words: &[&str]) -> String {
    match words {
        [] => String::new(),
        [word] => word.to_string(),
        [front @ .., last] => format!("{} or {last}", front.join(", ")),
    }
}

/// As `1 frame`, `2 frames`.
pub fn counted(count: usize, word: &str) -> String {
    if count == 1 {
        format!("1 {word}")
    } else {
        format!("{count} {word}s")
    }
}

pub fn kind(value: Value) -> &'static str {
    match value {
        Value::Integer(_) => "an integer",
        Value::Literal(_) | Value::Made(_) => "a text",
        Value::Code(_) => "a code",
        Value::Frame(_) => "a frame",
    }
}
