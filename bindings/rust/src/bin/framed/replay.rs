//! `framed replay`: the calls of a script over the proved library. Refusals, ends and what does not fit are told in words
//! beside the print, which is that of the program `replay`.
use crate::arguments::Options;
use crate::{ending, input, message, run, tell, Status};
use framed::replay::{self, Calls, Proved, Replayed, SCRIPT_BYTES};
use framed::{Found, Refusal, RunReport, Stop, Totals, TEXT_BUFFER};
use std::io::{self, Write};
use std::path::Path;

pub fn replay(options: &Options, out: &mut impl Write) -> io::Result<Status> {
    let script = match input::read(&options.files[0], SCRIPT_BYTES + 1) {
        Ok(script) => script,
        Err(status) => return Ok(status),
    };
    let label = options.files[0].to_string_lossy().into_owned();
    let mut calls = Told { label, script: &script, proved: Proved::default(), model: None, refused: None };
    let replayed = replay::replay(&script, Path::new(""), &mut calls, out)?;
    Ok(status(&replayed))
}

fn status(replayed: &Replayed) -> Status {
    if replayed.unfit {
        Status::Failed
    } else if replayed.refused {
        Status::Refused
    } else {
        ending::status(replayed.stop.unwrap_or(Stop::Done))
    }
}

/// The proved calls, with words on standard error.
struct Told<'a> {
    label: String,
    script: &'a [u8],
    proved: Proved,
    model: Option<Model>,
    /// What is wrong with a model that was just refused.
    refused: Option<String>,
}

/// The file that was loaded last, its source, and F.
struct Model {
    name: String,
    source: Vec<u8>,
    frames: u32,
}

impl Told<'_> {
    fn tell(&self, at: usize, words: &str) {
        tell(format_args!("{}:{}: {words}", self.label, message::place(self.script, at)));
    }
}

impl Calls for Told<'_> {
    fn load(&mut self, name: &str, source: &[u8], frames: u32, texts: u32) -> Result<(), Refusal> {
        let loaded = self.proved.load(name, source, frames, texts);
        match loaded {
            Ok(()) => self.model = Some(Model { name: name.to_owned(), source: source.to_owned(), frames }),
            Err(refusal) => self.refused = Some(message::refused(name, source, frames, texts, refusal)),
        }
        loaded
    }

    fn run(&mut self, fuel: u32, out: &mut [u8]) -> Result<RunReport, Refusal> {
        run::slices(fuel, |slice, used| self.proved.run(slice, &mut out[used..]))
    }

    fn collect(&mut self) -> Result<Totals, Refusal> {
        self.proved.collect()
    }

    fn look(&self, path: &[u8]) -> Result<Found, Refusal> {
        self.proved.look(path)
    }

    fn look_text(&self, path: &[u8]) -> Vec<u8> {
        self.proved.look_text(path)
    }

    fn write(&self, out: &mut [u8]) -> Result<usize, Refusal> {
        self.proved.write(out)
    }

    fn unfit(&mut self, at: usize, why: &str) {
        self.tell(at, why);
    }

    fn stopped(&mut self, stop: Stop) {
        if let (Stop::End(end), Some(model)) = (stop, &self.model) {
            tell(message::ended(&model.name, &model.source, model.frames, &self.proved.0, end));
        }
    }

    fn refused(&mut self, at: usize, what: &str, refusal: Refusal) {
        if let Some(words) = self.refused.take() {
            return tell(words);
        }
        let why = match refusal {
            Refusal(20) if self.model.is_none() => ": nothing is loaded".to_owned(),
            Refusal(23) => format!(": a SPACE of {TEXT_BUFFER} is enough for every model"),
            _ => message::why_not_found(|path| self.proved.look(path), what.as_bytes(), refusal),
        };
        self.tell(at, &format!("{what}: {refusal}{why}"));
    }
}
