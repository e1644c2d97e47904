//! The steps of a long run, on standard error where that is a terminal.
use std::io::{self, IsTerminal, Write};
use std::time::{Duration, Instant};

/// A run of less has no progress, and it is rewritten no sooner.
const FIRST: Duration = Duration::from_secs(1);
const NEXT: Duration = Duration::from_millis(200);

pub struct Progress {
    terminal: bool,
    due: Instant,
    /// How many characters stand there now.
    width: usize,
}

impl Progress {
    pub fn new() -> Progress {
        Progress { terminal: io::stderr().is_terminal(), due: Instant::now() + FIRST, width: 0 }
    }

    /// Rewrites the steps made so far, if it is time.
    pub fn show(&mut self, steps: u32) {
        if !self.terminal || Instant::now() < self.due {
            return;
        }
        let line = format!("{steps} steps");
        put(&format!("\r{line}"));
        self.width = line.len();
        self.due = Instant::now() + NEXT;
    }

    /// Takes the line away.
    pub fn clear(&mut self) {
        if self.width > 0 {
            put(&format!("\r{}\r", " ".repeat(self.width)));
            self.width = 0;
        }
    }
}

fn put(text: &str) {
    let mut err = io::stderr();
    let _ = err.write_all(text.as_bytes()).and_then(|()| err.flush());
}
