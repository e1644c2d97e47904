//! The printed run of a source.
use super::{collect, load, run};
use crate::Memories;

/// What `framerun` prints for a source: the shows, then `end E steps S frames F texts T`; or `refused N`.
pub fn framerun(source: &[u8]) -> Vec<u8> {
    let mut m = Memories::new();
    let mut shown = vec![0; 4_096];
    let loaded = load(source, 256, 256, &mut m.program, &mut m.heap, &mut m.literals, &mut m.texts);
    if let Err(refusal) = loaded {
        return format!("refused {}\n", refusal.0).into_bytes();
    }
    let report = run(&m.program, &mut m.heap, &m.literals, &mut m.texts, 100_000, &mut shown)
        .expect("load leaves whole memories");
    let totals = collect(&m.program, &mut m.heap, &m.literals, &m.texts)
        .expect("run leaves whole memories");
    shown.truncate(report.bytes);
    let line = format!(
        "end {} steps {} frames {} texts {}\n",
        report.stop, report.steps, totals.frames, totals.texts
    );
    shown.extend_from_slice(line.as_bytes());
    shown
}
