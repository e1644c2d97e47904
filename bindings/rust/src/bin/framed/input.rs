//! The files that are read, and a model loaded from one.
use crate::arguments::Options;
use crate::{message, tell, Status};
use framed::machine::Model;
use framed::replay::reason;
use framed::SOURCE_BYTES;
use std::ffi::OsStr;
use std::fs::File;
use std::io::{self, Read};

/// A model at its start, with its source.
pub struct Loaded {
    /// What messages call the file.
    pub label: String,
    pub source: Vec<u8>,
    pub frames: u32,
    pub model: Model,
}

/// Reads and loads a model. Where that cannot be, it says why on standard error.
pub fn load(file: &OsStr, options: &Options) -> Result<Loaded, Status> {
    // one byte more than a source may have is enough to refuse it
    let source = read(file, SOURCE_BYTES + 1)?;
    let label = file.to_string_lossy().into_owned();
    let (frames, texts) = (options.frames, options.texts);
    match Model::load(&source, frames, texts) {
        Ok(model) => Ok(Loaded { label, source, frames, model }),
        Err(refusal) => {
            tell(message::refused(&label, &source, frames, texts, refusal));
            Err(Status::Refused)
        }
    }
}

/// The bytes of a file, or of standard input for `-`, at most so many. Where it cannot be read, it says so.
pub fn read(file: &OsStr, most: usize) -> Result<Vec<u8>, Status> {
    let standard = file == "-";
    let bytes = if standard {
        read_all(io::stdin().lock(), most)
    } else {
        File::open(file).and_then(|file| read_all(file, most))
    };
    bytes.map_err(|error| {
        let name = if standard { "standard input".into() } else { file.to_string_lossy() };
        tell(format_args!("{name}: {}", reason(&error)));
        Status::Failed
    })
}

fn read_all(input: impl Read, most: usize) -> io::Result<Vec<u8>> {
    let mut bytes = Vec::new();
    input.take(most as u64).read_to_end(&mut bytes)?;
    Ok(bytes)
}
