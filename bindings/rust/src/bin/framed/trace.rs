//! `framed trace`: a model step by step.
use crate::arguments::Options;
use crate::ending::{self, Ran};
use crate::input::{self, Loaded};
use crate::{message, Status};
use framed::places::{self, Next, Places, Stored};
use framed::Stop;
use std::io::{self, BufWriter, Write};

/// Enough for the line of any show.
const SPACE: usize = 128;

pub fn trace(options: &Options, out: &mut impl Write) -> io::Result<Status> {
    let mut loaded = match input::load(&options.files[0], options) {
        Ok(loaded) => loaded,
        Err(status) => return Ok(status),
    };
    let mut out = BufWriter::new(out);
    let ran = steps(&mut loaded, options.fuel, &mut out)?;
    ending::finish(&mut loaded, &ran, &mut out)
}

/// One step a call.
fn steps(loaded: &mut Loaded, fuel: u32, out: &mut impl Write) -> io::Result<Ran> {
    // a model that loads has its places
    let places = places::places(&loaded.source, loaded.frames).unwrap_or_default();
    let mut shown = [0; SPACE];
    let mut steps = 0;
    loop {
        let slice = (fuel - steps).min(1);
        let next = places::next(&loaded.model);
        let report = loaded.model.run(slice, &mut shown);
        if let (1, Some((i, next))) = (report.steps, next) {
            let left = next.map_or("?".to_owned(), |next| left(loaded, &places, next, &shown[..report.bytes]));
            writeln!(out, "{}  -> {left}", instruction(loaded, &places, i))?;
        }
        steps += report.steps;
        if report.stop != Stop::Fuel || slice == 0 {
            return Ok(Ran { stop: report.stop, steps });
        }
    }
}

/// Where an instruction stands, and its text.
fn instruction(loaded: &Loaded, places: &Places, number: u32) -> String {
    let Some(range) = places.instructions.get(number as usize) else { return "?".to_owned() };
    let place = message::place(&loaded.source, range.start);
    let text = message::one_line(&loaded.source[range.clone()]);
    format!("{place:<6}  {text:<40}")
}

/// What an instruction has stored or shown, or where it jumped.
fn left(loaded: &Loaded, places: &Places, next: Next, shown: &[u8]) -> String {
    let code = |number| message::code(places, &loaded.source, number);
    match next {
        Next::Assign(target) => match places::stored(&loaded.model, target) {
            Some(Stored::Integer(n)) => n.to_string(),
            Some(Stored::Text(bytes)) => format!("\"{}\"", String::from_utf8_lossy(&bytes)),
            Some(Stored::Code(number)) => code(number),
            Some(Stored::Frame) => "frame".to_owned(),
            None => "?".to_owned(),
        },
        Next::Show => String::from_utf8_lossy(shown.strip_suffix(b"\n").unwrap_or(shown)).into_owned(),
        Next::Jump(number) => code(number),
        Next::Ifeq(Some(number)) => format!("jumps to {}", code(number)),
        Next::Ifeq(None) => "goes on".to_owned(),
    }
}
