//! The scripts of the program `replay`: a list of calls in the tokens of a source, made one after the other.
//!
//! README has the calls. [`replay`] prints, byte for byte, what the proved program `replay` prints for the same script,
//! over the proved library (`Proved`) or the plain implementation ([`Plain`]). A further call is one arm of `arguments`,
//! which says what stands behind its name, and one arm of `Replay::make`, which makes it.
#![forbid(unsafe_code)]

#[cfg(feature = "machine")]
use crate::machine;
use crate::places::no_token;
use crate::plain::token::{placed, Token};
use crate::{plain, Found, Memories, Refusal, RunReport, Stop, Totals, SOURCE_BYTES};
use std::fmt;
use std::fs::File;
use std::io::{self, Read, Write};
use std::ops::Range;
use std::path::Path;

/// The longest script, in bytes.
pub const SCRIPT_BYTES: usize = 65_536;
/// The largest output space of a run, and the largest buffer of a write, in bytes.
const RUN_SPACE: u32 = 4_096;
const WRITE_SPACE: u32 = 32_768;

/// The calls that a script makes, on memories of their own.
pub trait Calls {
    /// Loads the source that the file of this name has.
    fn load(&mut self, name: &str, source: &[u8], frames: u32, texts: u32) -> Result<(), Refusal>;
    fn run(&mut self, fuel: u32, out: &mut [u8]) -> Result<RunReport, Refusal>;
    fn collect(&mut self) -> Result<Totals, Refusal>;
    fn look(&self, path: &[u8]) -> Result<Found, Refusal>;
    /// The bytes of the text at the end of a path; none for another kind or a refusal.
    fn look_text(&self, path: &[u8]) -> Vec<u8>;
    /// The program as Framed text at the front of `out`: its length.
    fn write(&self, out: &mut [u8]) -> Result<usize, Refusal>;
    /// Is told why something has been printed behind a `?`, and the byte of the script where it begins.
    fn unfit(&mut self, _at: usize, _why: &str) {}
    /// Is told, when that has been printed, that a call was refused (`what`: the file, the path or the call's name), and
    /// the byte of the script where it begins.
    fn refused(&mut self, _at: usize, _what: &str, _refusal: Refusal) {}
    /// Is told, when that has been printed, how a run stopped.
    fn stopped(&mut self, _stop: Stop) {}
}

/// Memories, cleared at first, with the calls of one implementation.
macro_rules! calls {
    ($name:ident, $module:ident, $doc:literal) => {
        #[doc = $doc]
        #[derive(Clone, Default)]
        pub struct $name(pub Memories);

        impl Calls for $name {
            fn load(&mut self, _: &str, source: &[u8], frames: u32, texts: u32) -> Result<(), Refusal> {
                let m = &mut self.0;
                let (program, heap) = (&mut m.program, &mut m.heap);
                $module::load(source, frames, texts, program, heap, &mut m.literals, &mut m.texts)
            }

            fn run(&mut self, fuel: u32, out: &mut [u8]) -> Result<RunReport, Refusal> {
                let m = &mut self.0;
                $module::run(&m.program, &mut m.heap, &m.literals, &mut m.texts, fuel, out)
            }

            fn collect(&mut self) -> Result<Totals, Refusal> {
                let m = &mut self.0;
                $module::collect(&m.program, &mut m.heap, &m.literals, &m.texts)
            }

            fn look(&self, path: &[u8]) -> Result<Found, Refusal> {
                let m = &self.0;
                $module::look(&m.program, &m.heap, &m.literals, &m.texts, path)
            }

            fn look_text(&self, path: &[u8]) -> Vec<u8> {
                let m = &self.0;
                $module::look_text(&m.program, &m.heap, &m.literals, &m.texts, path).to_vec()
            }

            fn write(&self, out: &mut [u8]) -> Result<usize, Refusal> {
                let m = &self.0;
                $module::write(&m.program, &m.heap, &m.literals, &m.texts, out)
            }
        }
    };
}

calls!(Plain, plain, "The calls of the plain implementation, on memories that are cleared at first.");
#[cfg(feature = "machine")]
calls!(Proved, machine, "The calls of the proved library, on memories that are cleared at first.");

/// What a replay came to.
#[derive(Debug, Default)]
pub struct Replayed {
    /// Something was printed behind a `?`.
    pub unfit: bool,
    /// A call was refused.
    pub refused: bool,
    /// How the last run stopped.
    pub stop: Option<Stop>,
    /// The file that could not be read, which ended the replay, and why.
    pub unread: Option<(String, io::Error)>,
}

/// Makes the calls of a script one after the other and prints each answer. Files are looked for in `directory`; the
/// empty path is the working directory. The error is one of writing to `out`.
pub fn replay(
    script: &[u8],
    directory: &Path,
    calls: &mut impl Calls,
    out: &mut impl Write,
) -> io::Result<Replayed> {
    let mut replay = Replay { directory, calls, out, replayed: Replayed::default() };
    if script.len() > SCRIPT_BYTES {
        replay.put_unfit(b"script longer than 65536 bytes", 0, "the script is too long; no call is made")?;
    } else {
        replay.script(script)?;
    }
    Ok(replay.replayed)
}

// ---- The calls of a script

/// What may stand in a place behind the name of a call, with what README calls it.
#[derive(Clone, Copy)]
enum Argument {
    Text(&'static str),
    /// An integer; taken as 32 bits without sign it is at most this.
    Number(&'static str, u32),
}

impl fmt::Display for Argument {
    fn fmt(&self, f: &mut fmt::Formatter<'_>) -> fmt::Result {
        match self {
            Argument::Text(name) => write!(f, "{name}, a string"),
            Argument::Number(name, u32::MAX) => write!(f, "{name}, an integer"),
            Argument::Number(name, most) => write!(f, "{name}, an integer from 0 to {most}"),
        }
    }
}

#[derive(Clone, Copy)]
enum Value<'a> {
    Text(&'a [u8]),
    Number(u32),
}

/// The arguments of a call by its name; none where that is no call.
fn arguments(name: &[u8]) -> Option<&'static [Argument]> {
    use Argument::{Number, Text};
    Some(match name {
        b"load" => &[Text("FILE"), Number("F", u32::MAX), Number("T", u32::MAX)],
        b"run" => &[Number("FUEL", u32::MAX), Number("SPACE", RUN_SPACE)],
        b"collect" => &[],
        b"look" => &[Text("PATH")],
        b"write" => &[Number("SPACE", WRITE_SPACE)],
        _ => return None,
    })
}

/// A call whose arguments may not all be there yet.
struct Call<'a> {
    /// Where its name begins in the script.
    begin: usize,
    name: &'a [u8],
    arguments: &'static [Argument],
    values: Vec<Value<'a>>,
}

impl<'a> Call<'a> {
    /// The call that a token begins; or, where it is not the name of one, why.
    fn begun(token: Token<'a>, begin: usize) -> Result<Call<'a>, String> {
        if let Token::Name(name) = token {
            if let Some(arguments) = arguments(name) {
                return Ok(Call { begin, name, arguments, values: Vec::new() });
            }
        }
        Err("expected the name of a call".to_owned())
    }

    /// The call with one more argument; or, where the token does not fit, why.
    fn with(mut self, token: Token<'a>) -> Result<Call<'a>, String> {
        let argument = self.arguments[self.values.len()];
        let value = match (argument, token) {
            (Argument::Text(_), Token::String(text)) => Value::Text(text),
            (Argument::Number(_, most), Token::Integer(n)) if n as u32 <= most => Value::Number(n as u32),
            _ => {
                let name = String::from_utf8_lossy(self.name);
                return Err(format!("expected {argument}; the call `{name}` is not made"));
            }
        };
        self.values.push(value);
        Ok(self)
    }

    fn is_complete(&self) -> bool {
        self.values.len() == self.arguments.len()
    }
}

struct Replay<'a, C, W> {
    directory: &'a Path,
    calls: &'a mut C,
    out: &'a mut W,
    replayed: Replayed,
}

impl<C: Calls, W: Write> Replay<'_, C, W> {
    /// A token that does not fit is printed, and the next call begins behind it.
    fn script(&mut self, script: &[u8]) -> io::Result<()> {
        let mut open: Option<Call> = None;
        let mut end = 0;
        for (Range { start, end: token_end }, token) in placed(script) {
            let Ok(token) = token else {
                let why = format!("bytes that form no token: {}; no further call is made", no_token(script, start).1);
                return self.put_unfit(b"no token", start, &why);
            };
            end = token_end;
            let call = match open.take() {
                Some(call) => call.with(token),
                None => Call::begun(token, start),
            };
            match call {
                Ok(call) if call.is_complete() => self.make(&call)?,
                Ok(call) => open = Some(call),
                Err(why) => self.put_unfit(&script[start..end], start, &why)?,
            }
            if self.replayed.unread.is_some() {
                return Ok(());
            }
        }
        match open {
            Some(call) => {
                self.put_unfit(&script[call.begin..end], call.begin, "a call without all its arguments at the end")
            }
            None => Ok(()),
        }
    }

    fn make(&mut self, call: &Call) -> io::Result<()> {
        use Value::{Number, Text};
        match (call.name, call.values.as_slice()) {
            (b"load", &[Text(file), Number(frames), Number(texts)]) => self.load(call.begin, file, frames, texts),
            (b"run", &[Number(fuel), Number(space)]) => self.run(call.begin, fuel, space),
            (b"collect", []) => self.collect(call.begin),
            (b"look", &[Text(path)]) => self.look(call.begin, path),
            (b"write", &[Number(space)]) => self.write(call.begin, space),
            _ => unreachable!("a call with other arguments than its own"),
        }
    }

    fn load(&mut self, begin: usize, file: &[u8], frames: u32, texts: u32) -> io::Result<()> {
        let name = String::from_utf8_lossy(file);
        match read_source(&self.directory.join(&*name)) {
            Ok(source) => match self.calls.load(&name, &source, frames, texts) {
                Ok(()) => self.out.write_all(b"loaded\n"),
                Err(refusal) => self.put_refused(begin, &name, refusal),
            },
            // the memories are still those of an earlier load: so no further call is made
            Err(error) => {
                let why = format!("{name}: {}; no further call is made", reason(&error));
                self.replayed.unread = Some((name.into_owned(), error));
                self.put_unfit(file, begin, &why)
            }
        }
    }

    fn run(&mut self, begin: usize, fuel: u32, space: u32) -> io::Result<()> {
        let mut shown = vec![0; space as usize];
        match self.calls.run(fuel, &mut shown) {
            Ok(RunReport { stop, steps, bytes }) => {
                self.replayed.stop = Some(stop);
                self.out.write_all(&shown[..bytes])?;
                writeln!(self.out, "run {stop} steps {steps} bytes {bytes}")?;
                self.calls.stopped(stop);
                Ok(())
            }
            Err(refusal) => self.put_refused(begin, "run", refusal),
        }
    }

    fn collect(&mut self, begin: usize) -> io::Result<()> {
        match self.calls.collect() {
            Ok(Totals { frames, texts }) => writeln!(self.out, "collect frames {frames} texts {texts}"),
            Err(refusal) => self.put_refused(begin, "collect", refusal),
        }
    }

    fn look(&mut self, begin: usize, path: &[u8]) -> io::Result<()> {
        match self.calls.look(path) {
            Ok(Found::Integer(n)) => writeln!(self.out, "look integer {n}"),
            Ok(Found::Text) => {
                let text = self.calls.look_text(path);
                self.out.write_all(&[b"look text ", text.as_slice(), b"\n"].concat())
            }
            Ok(Found::Code) => self.out.write_all(b"look code\n"),
            Ok(Found::Frame(maker)) => writeln!(self.out, "look frame maker {maker}"),
            Err(refusal) => self.put_refused(begin, &String::from_utf8_lossy(path), refusal),
        }
    }

    fn write(&mut self, begin: usize, space: u32) -> io::Result<()> {
        let mut text = vec![0; space as usize];
        match self.calls.write(&mut text) {
            Ok(length) => {
                write!(self.out, "write bytes {length} ")?;
                self.out.write_all(&text[..length])?;
                self.out.write_all(b"\n")
            }
            Err(refusal) => self.put_refused(begin, "write", refusal),
        }
    }

    fn put_refused(&mut self, at: usize, what: &str, refusal: Refusal) -> io::Result<()> {
        self.replayed.refused = true;
        writeln!(self.out, "refused {}", refusal.0)?;
        self.calls.refused(at, what, refusal);
        Ok(())
    }

    fn put_unfit(&mut self, bytes: &[u8], at: usize, why: &str) -> io::Result<()> {
        self.replayed.unfit = true;
        self.out.write_all(&[b"? ", bytes, b"\n"].concat())?;
        self.calls.unfit(at, why);
        Ok(())
    }
}

/// The bytes of a file, of which one more than a source may have is enough.
fn read_source(path: &Path) -> io::Result<Vec<u8>> {
    let mut source = Vec::new();
    File::open(path)?.take(SOURCE_BYTES as u64 + 1).read_to_end(&mut source)?;
    Ok(source)
}

/// An error in words, without the number of the system.
pub fn reason(error: &io::Error) -> String {
    let words = error.to_string();
    words.split(" (os error").next().unwrap_or_default().to_owned()
}
