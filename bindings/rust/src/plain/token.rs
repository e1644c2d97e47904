//! Tokens of a source, or of the path text of a look.
use std::ops::Range;

/// The operators, in the order of their kinds in the program words.
#[derive(Clone, Copy, Debug, PartialEq, Eq)]
pub enum Operator {
    Plus,
    Minus,
    Times,
    Over,
    Less,
    Join,
    Equal,
    And,
    Or,
}

impl Operator {
    /// As it is written.
    pub fn sign(self) -> &'static str {
        match self {
            Operator::Plus => "+",
            Operator::Minus => "-",
            Operator::Times => "*",
            Operator::Over => "/",
            Operator::Less => "<",
            Operator::Join => "#",
            Operator::Equal => "==",
            Operator::And => "&&",
            Operator::Or => "||",
        }
    }
}

#[derive(Clone, Copy, Debug, PartialEq, Eq)]
pub enum Token<'a> {
    Name(&'a [u8]),
    Integer(i32),
    /// The bytes between the quotes.
    String(&'a [u8]),
    Frame,
    Code,
    SelfWord,
    Show,
    Jump,
    Ifeq,
    Colon,
    Assign,
    Dot,
    Up,
    Not,
    Operator(Operator),
    Semicolon,
    Comma,
    OpenSquare,
    CloseSquare,
    OpenCurly,
    CloseCurly,
}

/// Bytes that form no token.
#[derive(Clone, Copy, Debug, PartialEq, Eq)]
pub struct NoToken;

#[derive(Clone, Copy, PartialEq, Eq)]
enum Class {
    Other,
    Space,
    Letter,
    Digit,
    Mark,
}

const CLASSES: [Class; 256] = classes();

const fn classes() -> [Class; 256] {
    let mut table = [Class::Other; 256];
    let mut byte = 0;
    while byte < 256 {
        table[byte] = match byte as u8 {
            9 | 10 | 13 | 32 => Class::Space,
            b'A'..=b'Z' | b'a'..=b'z' | b'_' => Class::Letter,
            b'0'..=b'9' => Class::Digit,
            b':' | b'=' | b'.' | b'^' | b'!' | b'+' | b'-' | b'*' | b'/' | b'<' | b'#' | b'&'
            | b'|' | b';' | b',' | b'[' | b']' | b'{' | b'}' | b'"' => Class::Mark,
            _ => Class::Other,
        };
        byte += 1;
    }
    table
}

fn class(byte: u8) -> Class {
    CLASSES[usize::from(byte)]
}

fn in_name(byte: u8) -> bool {
    matches!(class(byte), Class::Letter | Class::Digit)
}

/// A byte that may stand in a string.
pub fn in_string(byte: u8) -> bool {
    (32..=126).contains(&byte) && byte != b'"'
}

/// The longest name and the longest text, in bytes.
pub const NAME_BYTES: usize = 16;
pub const STRING_BYTES: usize = 64;

pub struct Tokens<'a> {
    rest: &'a [u8],
}

impl<'a> Tokens<'a> {
    pub fn new(source: &'a [u8]) -> Tokens<'a> {
        Tokens { rest: source }
    }

    fn skip_space(&mut self) {
        loop {
            match self.rest {
                [b'/', b'/', ..] => {
                    let end = self.rest.iter().position(|&byte| byte == b'\n');
                    self.rest = end.map_or(&[], |end| &self.rest[end + 1..]);
                }
                [byte, rest @ ..] if class(*byte) == Class::Space => self.rest = rest,
                _ => return,
            }
        }
    }

    /// The bytes from the front that pass a test; they are taken off.
    fn take_while(&mut self, test: impl Fn(u8) -> bool) -> &'a [u8] {
        let length = self.rest.iter().position(|&byte| !test(byte)).unwrap_or(self.rest.len());
        let (taken, rest) = self.rest.split_at(length);
        self.rest = rest;
        taken
    }

    fn word(&mut self) -> Result<Token<'a>, NoToken> {
        let word = self.take_while(in_name);
        Ok(match word {
            b"frame" => Token::Frame,
            b"code" => Token::Code,
            b"self" => Token::SelfWord,
            b"show" => Token::Show,
            b"jump" => Token::Jump,
            b"ifeq" => Token::Ifeq,
            _ if word.len() <= NAME_BYTES => Token::Name(word),
            _ => return Err(NoToken),
        })
    }

    /// An integer of 32 bits, with any number of leading zeros.
    fn integer(&mut self, negative: bool) -> Result<Token<'a>, NoToken> {
        let digits = self.take_while(|byte| class(byte) == Class::Digit);
        let mut magnitude: i64 = 0;
        for digit in digits {
            magnitude = magnitude * 10 + i64::from(digit - b'0');
            if magnitude > -i64::from(i32::MIN) {
                return Err(NoToken);
            }
        }
        let value = if negative { -magnitude } else { magnitude };
        i32::try_from(value).map(Token::Integer).map_err(|_| NoToken)
    }

    fn string(&mut self) -> Result<Token<'a>, NoToken> {
        let text = self.take_while(in_string);
        match self.rest {
            [b'"', rest @ ..] if text.len() <= STRING_BYTES => {
                self.rest = rest;
                Ok(Token::String(text))
            }
            _ => Err(NoToken),
        }
    }

    fn mark(&mut self) -> Result<Token<'a>, NoToken> {
        let (token, length) = match self.rest {
            [b':', b'=', ..] => (Token::Assign, 2),
            [b'=', b'=', ..] => (Token::Operator(Operator::Equal), 2),
            [b'&', b'&', ..] => (Token::Operator(Operator::And), 2),
            [b'|', b'|', ..] => (Token::Operator(Operator::Or), 2),
            [b':', ..] => (Token::Colon, 1),
            [b'.', ..] => (Token::Dot, 1),
            [b'^', ..] => (Token::Up, 1),
            [b'!', ..] => (Token::Not, 1),
            [b'+', ..] => (Token::Operator(Operator::Plus), 1),
            [b'-', ..] => (Token::Operator(Operator::Minus), 1),
            [b'*', ..] => (Token::Operator(Operator::Times), 1),
            [b'/', ..] => (Token::Operator(Operator::Over), 1),
            [b'<', ..] => (Token::Operator(Operator::Less), 1),
            [b'#', ..] => (Token::Operator(Operator::Join), 1),
            [b';', ..] => (Token::Semicolon, 1),
            [b',', ..] => (Token::Comma, 1),
            [b'[', ..] => (Token::OpenSquare, 1),
            [b']', ..] => (Token::CloseSquare, 1),
            [b'{', ..] => (Token::OpenCurly, 1),
            [b'}', ..] => (Token::CloseCurly, 1),
            _ => return Err(NoToken),
        };
        self.rest = &self.rest[length..];
        Ok(token)
    }
}

/// The tokens of a source, each with its bytes. Where some form no token, only their beginning is given.
pub fn placed(source: &[u8]) -> impl Iterator<Item = (Range<usize>, Result<Token<'_>, NoToken>)> {
    let mut tokens = Tokens::new(source);
    std::iter::from_fn(move || {
        tokens.skip_space();
        let from = source.len() - tokens.rest.len();
        let token = tokens.next()?;
        Some((from..source.len() - tokens.rest.len(), token))
    })
}

impl<'a> Iterator for Tokens<'a> {
    type Item = Result<Token<'a>, NoToken>;

    fn next(&mut self) -> Option<Self::Item> {
        self.skip_space();
        let &first = self.rest.first()?;
        Some(match class(first) {
            Class::Letter => self.word(),
            Class::Digit => self.integer(false),
            Class::Mark if first == b'"' => {
                self.rest = &self.rest[1..];
                self.string()
            }
            // a `-` directly before a digit belongs to the integer
            Class::Mark if first == b'-' && self.rest.get(1).is_some_and(u8::is_ascii_digit) => {
                self.rest = &self.rest[1..];
                self.integer(true)
            }
            Class::Mark => self.mark(),
            Class::Space | Class::Other => Err(NoToken),
        })
    }
}
