//! `framed`: runs, checks, traces and writes models, tells what fills their memory, and replays scripts, over the
//! proved static library.
//!
//! Results go to standard output, words about them to standard error. The exit status is a [`Status`].
#![forbid(unsafe_code)]

mod arguments;
mod check;
mod ending;
mod help;
mod input;
mod makers;
mod message;
mod progress;
mod replay;
mod run;
mod trace;
mod write;

use arguments::{Command, Options, Request};
use std::fmt::Display;
use std::io::{self, Write};
use std::process::ExitCode;

/// The exit status.
#[derive(Clone, Copy, Debug, PartialEq, Eq)]
enum Status {
    Done = 0,
    /// An end by number, 31 to 37.
    Ended = 1,
    /// A refusal by number.
    Refused = 2,
    /// Stopped with fuel or output.
    Stopped = 3,
    /// A usage error, or one of input or output.
    Failed = 4,
}

fn main() -> ExitCode {
    let status = match arguments::read(std::env::args_os().skip(1).collect()) {
        Ok(request) => perform(&request),
        Err(usage) => {
            tell(usage);
            Status::Failed
        }
    };
    ExitCode::from(status as u8)
}

/// Does what was asked for. A reader of standard output that has gone away needs no words.
fn perform(request: &Request) -> Status {
    let mut out = io::stdout().lock();
    let done = answer(request, &mut out).and_then(|status| out.flush().map(|()| status));
    done.unwrap_or_else(|error| {
        if error.kind() != io::ErrorKind::BrokenPipe {
            tell(format_args!("standard output: {}", framed::replay::reason(&error)));
        }
        Status::Failed
    })
}

/// The error is one of writing to standard output.
fn answer(request: &Request, out: &mut impl Write) -> io::Result<Status> {
    match request {
        Request::Help(command) => out.write_all(help::text(*command).as_bytes()).map(|()| Status::Done),
        Request::Version => writeln!(out, "framed {}", env!("CARGO_PKG_VERSION")).map(|()| Status::Done),
        Request::Make(command, options) => make(*command, options, out),
    }
}

fn make(command: Command, options: &Options, out: &mut impl Write) -> io::Result<Status> {
    match command {
        Command::Run => run::run(options, out),
        Command::Where => makers::makers(options, out),
        Command::Check => check::check(options, out),
        Command::Trace => trace::trace(options, out),
        Command::Write => write::write(options, out),
        Command::Replay => replay::replay(options, out),
    }
}

/// Lines on standard error. Where that cannot be written, there is nobody to tell.
fn tell(words: impl Display) {
    let _ = io::stderr().write_all(format!("{words}\n").as_bytes());
}
