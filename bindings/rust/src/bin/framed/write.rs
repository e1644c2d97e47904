//! `framed write`: a model in the one form that all models of the same program have.
use crate::arguments::Options;
use crate::{input, tell, Status};
use framed::SOURCE_BYTES;
use std::io::{self, Write};

pub fn write(options: &Options, out: &mut impl Write) -> io::Result<Status> {
    let loaded = match input::load(&options.files[0], options) {
        Ok(loaded) => loaded,
        Err(status) => return Ok(status),
    };
    let text = loaded.model.text().expect("a text of a program that was loaded");
    out.write_all(&text)?;
    out.write_all(b"\n")?;
    out.flush()?;
    if text.len() > SOURCE_BYTES {
        let (label, length) = (&loaded.label, text.len());
        tell(format_args!("{label}: the text has {length} bytes; with more than {SOURCE_BYTES} it does not load"));
    }
    Ok(Status::Done)
}
