//! What must hold of the plain implementation by itself.
mod common;

use common::{rounds, Random, Writer};
use framed::{plain, Memories, Refusal, RunReport, Stop};

fn load(source: &[u8], frames: u32, texts: u32, m: &mut Memories) -> Result<(), Refusal> {
    plain::load(source, frames, texts, &mut m.program, &mut m.heap, &mut m.literals, &mut m.texts)
}

fn run(m: &mut Memories, fuel: u32, out: &mut [u8]) -> Result<RunReport, Refusal> {
    plain::run(&m.program, &mut m.heap, &m.literals, &mut m.texts, fuel, out)
}

fn is_whole(m: &Memories) -> bool {
    plain::is_whole(&m.program, &m.heap, &m.literals, &m.texts)
}

/// Most sources of the generator load, and their runs reach every kind of stop.
#[test]
fn generated_sources_run() {
    let mut random = Random(1);
    let mut loaded = 0;
    let mut stops = std::collections::BTreeMap::new();
    let total = rounds(400);
    for _ in 0..total {
        let source = Writer::source(&mut random);
        let mut m = Memories::new();
        let frames = random.pick(&[6, 8, 12, 256]);
        let texts = random.pick(&[0, 2, 256]);
        if load(source.as_bytes(), frames, texts, &mut m).is_ok() {
            loaded += 1;
            let mut out = [0; 200];
            let report = run(&mut m, 1_000, &mut out).unwrap();
            *stops.entry(report.stop.to_string()).or_insert(0) += 1;
            assert!(is_whole(&m));
        }
    }
    println!("{loaded} of {total} loaded; stops {stops:?}");
    assert!(loaded * 2 > total);
    for stop in ["0", "31", "36", "37", "fuel", "output"] {
        assert!(stops.contains_key(stop), "no run stopped with {stop}");
    }
}

/// One long run and many short ones with collections between them make the same steps and show the same bytes.
#[test]
fn slices_and_collections_change_nothing() {
    let mut random = Random(2);
    for _ in 0..rounds(300) {
        let source = Writer::source(&mut random);
        let (frames, texts) = (random.pick(&[6, 9, 256]), random.pick(&[1, 3, 256]));
        let mut whole = Memories::new();
        if load(source.as_bytes(), frames, texts, &mut whole).is_err() {
            continue;
        }
        let mut sliced = whole.clone();
        let mut shown = vec![0; 4_096];
        let report = run(&mut whole, 500, &mut shown).unwrap();
        shown.truncate(report.bytes);

        let mut bytes = Vec::new();
        let mut steps = 0;
        let stop = loop {
            if random.one_in(2) {
                plain::collect(&sliced.program, &mut sliced.heap, &sliced.literals, &sliced.texts).unwrap();
            }
            let fuel = (1 + random.below(20) as u32).min(500 - steps);
            let mut out = [0; 2_000];
            let part = run(&mut sliced, fuel, &mut out).unwrap();
            assert!(is_whole(&sliced));
            bytes.extend_from_slice(&out[..part.bytes]);
            steps += part.steps;
            if part.stop != Stop::Fuel || steps == 500 {
                break part.stop;
            }
        };
        assert_eq!((stop, steps, bytes), (report.stop, report.steps, shown), "{source}");
    }
}

/// A refused call changes nothing; memories with one damaged word or byte are refused or give an answer.
#[test]
fn refused_calls_change_nothing() {
    let mut random = Random(3);
    let mut refused = 0;
    for _ in 0..rounds(400) {
        let source = Writer::source(&mut random);
        let mut m = Memories::new();
        if load(source.as_bytes(), 256, 256, &mut m).is_err() {
            continue;
        }
        run(&mut m, 40, &mut [0; 400]).unwrap();
        common::damage(&mut m, &mut random);
        let before = m.clone();
        let mut out = [7; 100];
        match run(&mut m, 20, &mut out) {
            Ok(report) => {
                assert!(is_whole(&m));
                assert!(out[report.bytes..].iter().all(|&byte| byte == 7));
            }
            Err(refusal) => {
                refused += 1;
                assert_eq!(refusal, Refusal(20));
                assert!(m == before && out == [7; 100]);
            }
        }
        let bad = common::damaged_source(source.as_bytes(), &mut random);
        let before = m.clone();
        if load(&bad, 256, 256, &mut m).is_err() {
            assert!(m == before);
        }
    }
    assert!(refused > 0);
}

/// The worked example of the specification, call by call.
#[test]
fn printed_run_by_calls() {
    let source = b"frame: [ Main := frame: [
 start := code { self.n := 7; jump ^.next self; },
 next := code { self.t := \"n=\" # self.n; show self.t; } ] ]";
    let mut m = Memories::new();
    load(source, 3, 1, &mut m).unwrap();
    let mut out = [0; 8];
    assert_eq!(run(&mut m, 3, &mut out), Ok(RunReport { stop: Stop::Fuel, steps: 3, bytes: 0 }));
    assert_eq!(run(&mut m, 9, &mut out[..3]), Ok(RunReport { stop: Stop::Output, steps: 0, bytes: 0 }));
    assert_eq!(run(&mut m, 9, &mut out[..4]), Ok(RunReport { stop: Stop::Done, steps: 1, bytes: 4 }));
    assert_eq!(&out[..4], b"n=7\n");
    let look = |path: &[u8]| plain::look(&m.program, &m.heap, &m.literals, &m.texts, path);
    let text = |path: &[u8]| plain::look_text(&m.program, &m.heap, &m.literals, &m.texts, path);
    assert_eq!(look(b"self.n"), Ok(framed::Found::Integer(7)));
    assert_eq!(look(b" self . t // a text"), Ok(framed::Found::Text));
    assert_eq!(look(b"^.Main.start"), Ok(framed::Found::Code));
    assert_eq!(look(b"^"), Ok(framed::Found::Frame(0)));
    assert_eq!(look(b"^.^"), Err(Refusal(21)));
    assert_eq!(look(b"self.frame"), Err(Refusal(21)));
    assert_eq!(look(b"self.absent"), Err(Refusal(22)));
    assert_eq!(look(b"self.n.n"), Err(Refusal(22)));
    assert_eq!(text(b"self.t"), b"n=7");
    assert_eq!(text(b"self.n"), b"");
}
