//! `framed where`: a run, and then which instructions made the frames that are reached.
use crate::arguments::Options;
use crate::input::{self, Loaded};
use crate::{ending, message, run, tell, Status};
use framed::places::{self, Places};
use framed::{End, Stop, MAKERS};
use std::cmp::Reverse;
use std::io::{self, Write};

pub fn makers(options: &Options, out: &mut impl Write) -> io::Result<Status> {
    let mut loaded = match input::load(&options.files[0], options) {
        Ok(loaded) => loaded,
        Err(status) => return Ok(status),
    };
    let ran = run::written_run(&mut loaded, options.fuel, out)?;
    let status = ending::end(&mut loaded, &ran, out)?;
    if options.always || ran.stop == Stop::End(End::FramesFull) {
        print(&loaded, out)?;
    } else {
        tell(format_args!("{}: no end 36; --always says what made the frames however the run stops", loaded.label));
    }
    Ok(status)
}

/// How many frames are reached, and a line for each maker: most frames first, then by number.
fn print(loaded: &Loaded, out: &mut impl Write) -> io::Result<()> {
    // a model that loads has its places
    let places = places::places(&loaded.source, loaded.frames).unwrap_or_default();
    let counts = loaded.model.makers();
    let mut makers: Vec<usize> = (0..MAKERS).filter(|&maker| counts[maker] > 0).collect();
    makers.sort_by_key(|&maker| Reverse(counts[maker]));
    match counts.iter().sum() {
        0u32 => writeln!(out, "0 frames reached")?,
        1 => writeln!(out, "1 frame reached, made:")?,
        total => writeln!(out, "{total} frames reached, made:")?,
    }
    let width = makers.first().map_or(0, |&most| counts[most].to_string().len());
    for maker in makers {
        writeln!(out, "  {:>width$} {}", counts[maker], made(loaded, &places, maker))?;
    }
    Ok(())
}

/// As `by instruction 7 at a.framed:9:5: self.list := frame: [ next := self.list ];`.
fn made(loaded: &Loaded, places: &Places, maker: usize) -> String {
    let Some(instruction) = maker.checked_sub(1) else { return "at loading".to_owned() };
    let Some(range) = places.instructions.get(instruction) else { return format!("by instruction {maker}") };
    let Loaded { label, source, .. } = loaded;
    let (place, text) = (message::place(source, range.start), message::one_line(&source[range.clone()]));
    format!("by instruction {maker} at {label}:{place}: {text}")
}
