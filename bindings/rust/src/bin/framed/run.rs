//! `framed run`: a model in slices, which nobody sees (demand 3), so that shows are written as they come.
use crate::arguments::Options;
use crate::ending::{self, Ran};
use crate::input::{self, Loaded};
use crate::progress::Progress;
use crate::{message, tell, Status};
use framed::{Found, RunReport, Stop};
use std::ffi::OsStr;
use std::io::{self, Write};

/// The fuel and the buffer of one slice.
const FUEL: u32 = 1_000_000;
const SPACE: usize = 64 * 1_024;

pub fn run(options: &Options, out: &mut impl Write) -> io::Result<Status> {
    let mut loaded = match input::load(&options.files[0], options) {
        Ok(loaded) => loaded,
        Err(status) => return Ok(status),
    };
    let ran = written_run(&mut loaded, options.fuel, out)?;
    let mut status = ending::finish(&mut loaded, &ran, out)?;
    for path in &options.looks {
        let looked = look(&loaded, path, out)?;
        if status == Status::Done {
            status = looked;
        }
    }
    Ok(status)
}

/// A run whose shows stay in the caller's buffer, in slices so that a long one tells its steps. `run` is given the fuel of a
/// slice and the bytes of the buffer that are used.
pub fn slices<E>(fuel: u32, mut run: impl FnMut(u32, usize) -> Result<RunReport, E>) -> Result<RunReport, E> {
    let mut progress = Progress::new();
    let (mut steps, mut bytes) = (0, 0);
    loop {
        let report = run(FUEL.min(fuel - steps), bytes)?;
        steps += report.steps;
        bytes += report.bytes;
        if report.stop != Stop::Fuel || steps == fuel {
            progress.clear();
            return Ok(RunReport { stop: report.stop, steps, bytes });
        }
        progress.show(steps);
    }
}

/// A run whose shows are written as they come: so a full buffer does not stop it.
pub fn written_run(loaded: &mut Loaded, fuel: u32, out: &mut impl Write) -> io::Result<Ran> {
    let mut shown = vec![0; SPACE];
    let mut progress = Progress::new();
    let mut steps = 0;
    loop {
        let report = loaded.model.run(FUEL.min(fuel - steps), &mut shown);
        steps += report.steps;
        let stop = report.stop;
        // a line has at most 65 bytes: an empty buffer has the space for it
        let goes_on = stop == Stop::Output || stop == Stop::Fuel && steps < fuel;
        if !goes_on || report.bytes > 0 {
            progress.clear();
        }
        out.write_all(&shown[..report.bytes])?;
        out.flush()?;
        if !goes_on {
            return Ok(Ran { stop, steps });
        }
        progress.show(steps);
    }
}

/// As `self.faults integer 7`.
fn look(loaded: &Loaded, path: &OsStr, out: &mut impl Write) -> io::Result<Status> {
    let bytes = path.as_encoded_bytes();
    let model = &loaded.model;
    let found = match model.look(bytes) {
        Ok(Found::Integer(n)) => format!("integer {n}").into_bytes(),
        Ok(Found::Text) => [b"text ", model.look_text(bytes).as_slice()].concat(),
        Ok(Found::Code) => b"code".to_vec(),
        Ok(Found::Frame(maker)) => format!("frame maker {maker}").into_bytes(),
        Err(refusal) => {
            out.flush()?;
            let why = message::why_not_found(|path| model.look(path), bytes, refusal);
            tell(format_args!("{}: {refusal}{why}", path.to_string_lossy()));
            return Ok(Status::Refused);
        }
    };
    out.write_all(&[bytes, b" ", &found, b"\n"].concat())?;
    Ok(Status::Done)
}
