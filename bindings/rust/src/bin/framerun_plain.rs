//! `framerun` over the plain implementation: a source on standard input, its printed run on standard output.
use std::io::{self, Read, Write};

fn main() -> io::Result<()> {
    let mut source = Vec::new();
    io::stdin().lock().take(framed::SOURCE_BYTES as u64 + 1).read_to_end(&mut source)?;
    io::stdout().lock().write_all(&framed::plain::framerun(&source))
}
