//! `framed check`: which models load.
use crate::arguments::Options;
use crate::{input, Status};
use std::io::{self, Write};

pub fn check(options: &Options, out: &mut impl Write) -> io::Result<Status> {
    let mut worst = Status::Done;
    for file in &options.files {
        match input::load(file, options) {
            Ok(loaded) => {
                writeln!(out, "{}: loads", loaded.label)?;
                out.flush()?;
            }
            Err(Status::Refused) if worst == Status::Failed => {}
            Err(status) => worst = status,
        }
    }
    Ok(worst)
}
