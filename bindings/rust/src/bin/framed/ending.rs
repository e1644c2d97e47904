//! The end of a run or a trace: its last line, and why it ended where it did.
use crate::input::Loaded;
use crate::{message, tell, Status};
use framed::{End, Stop};
use std::io::{self, Write};

/// How a run ended, and the steps that it made.
pub struct Ran {
    pub stop: Stop,
    pub steps: u32,
}

/// The end of a run, and where it is one for want of frames, the command that tells more.
pub fn finish(loaded: &mut Loaded, ran: &Ran, out: &mut impl Write) -> io::Result<Status> {
    let status = end(loaded, ran, out)?;
    if ran.stop == Stop::End(End::FramesFull) {
        tell("  `framed where` tells which instructions made the frames");
    }
    Ok(status)
}

/// Collects and prints `end E steps S frames F texts T`; an end by number or spent fuel is told in words.
pub fn end(loaded: &mut Loaded, ran: &Ran, out: &mut impl Write) -> io::Result<Status> {
    let Ran { stop, steps } = *ran;
    let totals = loaded.model.collect();
    writeln!(out, "end {stop} steps {steps} frames {} texts {}", totals.frames, totals.texts)?;
    out.flush()?;
    if let Stop::End(end) = stop {
        let Loaded { label, source, frames, model } = loaded;
        tell(message::ended(label, source, *frames, model.memories(), end));
    } else if stop != Stop::Done {
        let unit = if steps == 1 { "step" } else { "steps" };
        tell(format_args!("{}: {stop}: stopped after {steps} {unit}; --fuel N gives more", loaded.label));
    }
    Ok(status(stop))
}

pub fn status(stop: Stop) -> Status {
    match stop {
        Stop::Done => Status::Done,
        Stop::End(_) => Status::Ended,
        Stop::Fuel | Stop::Output => Status::Stopped,
    }
}
