//! Times the proved machine and the plain implementation in one run, on the same inputs, and prints a table.
//!
//!   cargo run --release --offline --bin bench -- [FILE.md]
//!
//! With a file it also writes the table between the lines `<!-- bench -->` and `<!-- end of bench -->` of that file, and a
//! plot as `performance.svg` beside it. Build with the usual settings of the release profile; both are then optimised.
use framed::{machine, plain, Memories, Refusal, RunReport, Stop, MAKERS};
use std::fmt::Write as _;
use std::hint::black_box;
use std::path::Path;
use std::time::{Duration, Instant};

/// The calls of one implementation.
#[derive(Clone, Copy)]
struct Calls {
    load: fn(&[u8], u32, u32, &mut [u32], &mut [u32], &mut [u8], &mut [u8]) -> Result<(), Refusal>,
    run: fn(&[u32], &mut [u32], &[u8], &mut [u8], u32, &mut [u8]) -> Result<RunReport, Refusal>,
    collect: fn(&[u32], &mut [u32], &[u8], &[u8]) -> Result<framed::Totals, Refusal>,
    look: fn(&[u32], &[u32], &[u8], &[u8], &[u8]) -> Result<framed::Found, Refusal>,
    makers: fn(&[u32], &[u32], &[u8], &[u8], &mut [u32; MAKERS]) -> Result<(), Refusal>,
    write: fn(&[u32], &[u32], &[u8], &[u8], &mut [u8]) -> Result<usize, Refusal>,
}

const PLAIN: Calls = Calls {
    load: plain::load,
    run: plain::run,
    collect: plain::collect,
    look: plain::look,
    makers: plain::makers,
    write: plain::write,
};
const PROVED: Calls = Calls {
    load: machine::load,
    run: machine::run,
    collect: machine::collect,
    look: machine::look,
    makers: machine::makers,
    write: machine::write,
};

impl Calls {
    fn load(&self, source: &str, frames: u32, m: &mut Memories) {
        (self.load)(
            black_box(source.as_bytes()),
            frames,
            256,
            &mut m.program,
            &mut m.heap,
            &mut m.literals,
            &mut m.texts,
        )
        .expect("the bench's sources load");
    }

    fn loaded(&self, source: &str, frames: u32) -> Memories {
        let mut m = Memories::new();
        self.load(source, frames, &mut m);
        m
    }

    fn run(&self, m: &mut Memories, fuel: u32, space: &mut [u8]) -> RunReport {
        (self.run)(&m.program, &mut m.heap, &m.literals, &mut m.texts, black_box(fuel), space).expect("whole memories")
    }
}

/// What is measured, for one implementation: seconds for one item.
struct Measure {
    name: &'static str,
    item: &'static str,
    seconds: fn(&Calls) -> f64,
}

const TURN: Duration = Duration::from_millis(20);
const TURNS: usize = 31;

/// Seconds for one call of `work`. What `reset` takes does not count.
fn time_after<S>(state: &mut S, mut reset: impl FnMut(&mut S), mut work: impl FnMut(&mut S)) -> f64 {
    let mut taken = Duration::ZERO;
    let mut count = 0u32;
    while taken < TURN {
        reset(state);
        let start = Instant::now();
        work(state);
        taken += start.elapsed();
        count += 1;
    }
    taken.as_secs_f64() / f64::from(count)
}

/// Seconds for one call of `work`.
fn time(mut work: impl FnMut()) -> f64 {
    const CALLS: u32 = 16;
    time_after(&mut (), |()| (), |()| (0..CALLS).for_each(|_| work())) / f64::from(CALLS)
}

/// A source of 16,384 bytes with 128 names, 509 instructions, 1,020 expressions and 120 literals. It jumps to its start.
fn long_source() -> String {
    let mut source = String::from("frame: [ Main := frame: [ start := code {\n  jump ^.start self;\n");
    for i in 0..254 {
        let _ = write!(source, "  self.n{} := self.n{} + {i}; show ", i % 126, (i + 1) % 126);
        source.push_str(if i < 120 { "\"a text\";\n" } else { "^.start;\n" });
    }
    source.push_str("} ] ]\n");
    while source.len() < framed::SOURCE_BYTES {
        let line = "// a comment fills the source up\n";
        let room = framed::SOURCE_BYTES - source.len();
        source.push_str(if room < line.len() { " " } else { line });
    }
    source
}

const DRIVE: &str = include_str!("../../../../examples/drive.framed");

const COUNT: &str = "frame: [ Main := frame: [
  start := code { self.n := 1000000000; jump ^.loop self; },
  loop := code { self.n := self.n - 1; ifeq self.n ^.end self; jump ^.loop self; },
  end := code {} ] ]";

const TEXTS: &str = "frame: [ Main := frame: [
  start := code { self.n := 0; jump ^.loop self; },
  loop := code { self.n := self.n + 1; self.t := \"n = \" # self.n; self.same := self.t == \"n = 5\"; jump ^.loop self; } ] ]";

/// A frame and a code joined in three steps.
const MESSAGES: &str = "frame: [ Main := frame: [
  start := code { jump ^.loop self; },
  loop := code { self.t := \"left in: \" # self; self.t := self.t # ^.loop; jump ^.loop self; } ] ]";

/// A line in three steps.
const SHOWS: &str = "frame: [ Main := frame: [
  start := code { self.n := 0; jump ^.loop self; },
  loop := code { self.n := self.n + 1; show self.n; jump ^.loop self; } ] ]";

/// One frame in four steps, dead after them.
const CALLS: &str = "frame: [
  double := frame: [ start := code { self.caller.result := self.x + self.x; jump self.return self.caller; } ],
  Main := frame: [
    start := code { jump ^.call self; },
    call := code {
      self := frame: [ return := ^.call, caller := self, x := 21 ];
      jump ^.^.double.start self;
    } ] ]";

/// One frame in two steps, which a list keeps.
const LIST: &str = "frame: [ Main := frame: [
  start := code { self.list := 0; jump ^.loop self; },
  loop := code { self.list := frame: [ next := self.list ]; jump ^.loop self; } ] ]";

/// Two equal blocks of 20 instructions in two frames, compared in two steps.
fn equal_blocks() -> String {
    let block = "self.n := self.n + 1; self.t := \"n = \" # self.n; show self.t; ifeq self.n ^.^.Main.end self;
      self.list := frame: [ next := self.list, n := self.n ]; "
        .repeat(4);
    format!(
        "frame: [ other := frame: [ block := code {{ {block}}} ], Main := frame: [
          start := code {{ jump ^.loop self; }},
          loop := code {{ self.same := ^.block == ^.^.other.block; jump ^.loop self; }},
          block := code {{ {block}}},
          end := code {{}} ] ]"
    )
}

/// Two equal codes that fill the tables, compared in two steps. In 16,362 bytes there are 498 instructions, 1,003
/// expressions, 127 codes, 124 literals of 64 bytes and 1,868 names of paths.
fn equal_full_codes() -> String {
    let (text, frame) = ("x".repeat(64), "^.n:=frame:[n:=^];");
    let code = format!("jump\"{text}\"code{{}};{}", frame.repeat(3)).repeat(62);
    format!(
        "frame:[x:=frame:[n:=frame:[a:=code{{{code}}},b:=code{{{code}}}]],\
         Main:=frame:[start:=code{{self:=^.^.x.n.a==^.^.x.n.b;jump^.start 0;}}]]"
    )
}

/// Seconds for one step of an endless program.
fn steps(calls: &Calls, source: &str, frames: u32) -> f64 {
    let fuel = 5_000;
    let mut m = calls.loaded(source, frames);
    let mut space = [0; 32_768];
    time(|| {
        let report = calls.run(&mut m, fuel, &mut space);
        assert_eq!((report.stop, report.steps), (Stop::Fuel, fuel));
    }) / f64::from(fuel)
}

/// Seconds for one write of a source's program.
fn write(calls: &Calls, source: &str) -> f64 {
    let m = calls.loaded(source, 256);
    let mut text = vec![0; framed::TEXT_BUFFER];
    time(|| {
        let length = (calls.write)(&m.program, &m.heap, &m.literals, &m.texts, black_box(&mut text));
        assert!(length.is_ok_and(|length| length > 0));
    })
}

const MEASURES: &[Measure] = &[
    Measure {
        name: "load, source of 16,384 bytes",
        item: "call",
        seconds: |calls| {
            let source = long_source();
            let mut m = Memories::new();
            time(|| calls.load(&source, 256, &mut m))
        },
    },
    Measure {
        name: "load, examples/drive.framed",
        item: "call",
        seconds: |calls| {
            let mut m = Memories::new();
            time(|| calls.load(DRIVE, 256, &mut m))
        },
    },
    Measure { name: "steps, a counting loop", item: "step", seconds: |calls| steps(calls, COUNT, 256) },
    Measure { name: "steps, shown counters", item: "step", seconds: |calls| steps(calls, SHOWS, 256) },
    Measure { name: "steps, joined and compared texts", item: "step", seconds: |calls| steps(calls, TEXTS, 256) },
    Measure { name: "steps, joined frames and codes", item: "step", seconds: |calls| steps(calls, MESSAGES, 256) },
    Measure { name: "steps, compared codes", item: "step", seconds: |calls| steps(calls, &equal_blocks(), 256) },
    Measure {
        name: "compared codes, full tables",
        item: "comparison",
        seconds: |calls| {
            let mut m = calls.loaded(&equal_full_codes(), 256);
            let work = |m: &mut Memories| assert_eq!(calls.run(m, 2 * 1_000, &mut []).stop, Stop::Fuel);
            time_after(&mut m, |_| (), work) / 1_000.0
        },
    },
    Measure {
        name: "frames made, no collection",
        item: "frame",
        seconds: |calls| {
            let loaded = calls.loaded(LIST, 256);
            let mut m = loaded.clone();
            // 250 frames fit beside the three of the start; the cost of the call is spread over them
            let reset = |m: &mut Memories| m.heap.copy_from_slice(&loaded.heap);
            let work = |m: &mut Memories| {
                let report = calls.run(m, 1 + 2 * 250, &mut [0; 256]);
                assert_eq!(report.stop, Stop::Fuel);
            };
            time_after(&mut m, reset, work) / 250.0
        },
    },
    Measure {
        name: "frames made, F = 256, collections",
        item: "frame",
        seconds: |calls| 4.0 * steps(calls, CALLS, 256),
    },
    Measure {
        name: "frames made, F = 8, collections",
        item: "frame",
        seconds: |calls| 4.0 * steps(calls, CALLS, 8),
    },
    Measure {
        name: "run with fuel 1, drive model",
        item: "call",
        seconds: |calls| {
            let mut m = calls.loaded(DRIVE, 256);
            calls.run(&mut m, 1_000, &mut [0; 256]);
            let loaded = m.clone();
            let reset = |m: &mut Memories| m.heap.copy_from_slice(&loaded.heap);
            let work = |m: &mut Memories| {
                for _ in 0..500 {
                    assert_eq!(calls.run(m, 1, &mut [0; 256]).stop, Stop::Fuel);
                }
            };
            time_after(&mut m, reset, work) / 500.0
        },
    },
    Measure {
        name: "run with fuel 1, full tables",
        item: "call",
        seconds: |calls| {
            let mut m = calls.loaded(&long_source(), 256);
            time(|| assert_eq!(calls.run(&mut m, 1, &mut [0; 256]).stop, Stop::Fuel))
        },
    },
    Measure {
        name: "look, drive model",
        item: "call",
        seconds: |calls| {
            let mut m = calls.loaded(DRIVE, 256);
            calls.run(&mut m, 100_000, &mut [0; 256]);
            time(|| {
                let found = (calls.look)(&m.program, &m.heap, &m.literals, &m.texts, black_box(b"self.faults"));
                assert_eq!(found, Ok(framed::Found::Integer(1)));
            })
        },
    },
    Measure {
        name: "collect, drive model",
        item: "call",
        seconds: |calls| {
            let mut m = calls.loaded(DRIVE, 256);
            calls.run(&mut m, 1_000, &mut [0; 256]);
            time(|| {
                (calls.collect)(&m.program, &mut m.heap, &m.literals, &m.texts).expect("whole memories");
            })
        },
    },
    Measure {
        name: "makers, drive model",
        item: "call",
        seconds: |calls| {
            let mut m = calls.loaded(DRIVE, 256);
            calls.run(&mut m, 1_000, &mut [0; 256]);
            let mut counts = [0; MAKERS];
            time(|| {
                let counts = black_box(&mut counts);
                (calls.makers)(&m.program, &m.heap, &m.literals, &m.texts, counts).expect("whole memories");
            })
        },
    },
    Measure { name: "write, source of 16,384 bytes", item: "call", seconds: |calls| write(calls, &long_source()) },
    Measure { name: "write, drive model", item: "call", seconds: |calls| write(calls, DRIVE) },
];

struct Row {
    name: &'static str,
    item: &'static str,
    plain: f64,
    proved: f64,
}

impl Row {
    /// How long the proved machine takes where the plain implementation takes 1.
    fn ratio(&self) -> f64 {
        self.proved / self.plain
    }
}

/// The middle of the times of some turns. The two implementations take turns, so that a slow moment meets both.
fn measure(measure: &Measure) -> Row {
    let mut plain = Vec::new();
    let mut proved = Vec::new();
    for _ in 0..TURNS {
        plain.push((measure.seconds)(&PLAIN));
        proved.push((measure.seconds)(&PROVED));
    }
    let middle = |times: &mut Vec<f64>| {
        times.sort_by(f64::total_cmp);
        times[times.len() / 2]
    };
    Row { name: measure.name, item: measure.item, plain: middle(&mut plain), proved: middle(&mut proved) }
}

fn shown(seconds: f64) -> String {
    match seconds {
        s if s < 1e-6 => format!("{:.1} ns", s * 1e9),
        s if s < 1e-3 => format!("{:.1} µs", s * 1e6),
        s => format!("{:.2} ms", s * 1e3),
    }
}

fn table(rows: &[Row]) -> String {
    let mut out = String::from(
        "| What | One | Machine | Plain Rust | Machine, a second | Machine / plain |\n|---|---|---:|---:|---:|---:|\n",
    );
    for row in rows {
        let rate = 1.0 / row.proved;
        let rate = if rate >= 1e6 { format!("{:.2} million", rate / 1e6) } else { format!("{rate:.0}") };
        let _ = writeln!(
            out,
            "| {} | {} | {} | {} | {} | {:.2} |",
            row.name,
            row.item,
            shown(row.proved),
            shown(row.plain),
            rate,
            row.ratio()
        );
    }
    out
}

/// Bars from 1 (as fast as plain Rust) to the ratio, on a logarithmic axis.
fn plot(rows: &[Row]) -> String {
    const LEFT: f64 = 260.0;
    const WIDTH: f64 = 460.0;
    const LINE: f64 = 26.0;
    let ratios = rows.iter().map(|row| row.ratio().log2());
    let low = ratios.clone().fold(-1.0, f64::min).floor();
    let high = ratios.fold(1.0, f64::max).ceil();
    let x = |ratio: f64| LEFT + WIDTH * (ratio.log2() - low) / (high - low);
    let height = LINE * (rows.len() as f64 + 3.0);
    let mut out = format!(
        "<svg xmlns=\"http://www.w3.org/2000/svg\" width=\"{}\" height=\"{height}\" font-family=\"sans-serif\" font-size=\"13\">\n\
         <rect width=\"100%\" height=\"100%\" fill=\"white\"/>\n\
         <text x=\"10\" y=\"20\">Time of the proved machine / time of plain Rust (left of 1: faster)</text>\n",
        LEFT + WIDTH + 80.0
    );
    let bottom = LINE * (rows.len() as f64 + 1.5);
    for tick in low as i32..=high as i32 {
        let ratio = 2f64.powi(tick);
        let stroke = if tick == 0 { "black" } else { "#ddd" };
        let _ = writeln!(
            out,
            "<line x1=\"{0:.1}\" x2=\"{0:.1}\" y1=\"{1}\" y2=\"{bottom}\" stroke=\"{stroke}\"/>\
             <text x=\"{0:.1}\" y=\"{2}\" text-anchor=\"middle\" fill=\"#555\">{ratio}</text>",
            x(ratio),
            LINE * 1.2,
            bottom + 16.0
        );
    }
    for (i, row) in rows.iter().enumerate() {
        let y = LINE * (i as f64 + 1.5);
        let (from, to) = (x(1.0).min(x(row.ratio())), x(1.0).max(x(row.ratio())));
        let fill = if row.ratio() <= 1.0 { "#2a7" } else { "#d72" };
        let _ = writeln!(
            out,
            "<text x=\"{}\" y=\"{:.1}\" text-anchor=\"end\">{}</text>\
             <rect x=\"{from:.1}\" y=\"{:.1}\" width=\"{:.1}\" height=\"14\" fill=\"{fill}\"/>\
             <text x=\"{:.1}\" y=\"{:.1}\">{:.2}</text>",
            LEFT - 10.0,
            y + 4.0,
            row.name,
            y - 7.0,
            (to - from).max(1.0),
            to + 6.0,
            y + 4.0,
            row.ratio()
        );
    }
    out.push_str("</svg>\n");
    out
}

fn store(file: &Path, rows: &[Row]) -> Result<(), Box<dyn std::error::Error>> {
    const BEGIN: &str = "<!-- bench -->\n";
    const END: &str = "<!-- end of bench -->";
    let text = std::fs::read_to_string(file)?;
    let (before, rest) = text.split_once(BEGIN).ok_or("the file has no line <!-- bench -->")?;
    let (_, after) = rest.split_once(END).ok_or("the file has no line <!-- end of bench -->")?;
    std::fs::write(file, format!("{before}{BEGIN}{}{END}{after}", table(rows)))?;
    std::fs::write(file.with_file_name("performance.svg"), plot(rows))?;
    Ok(())
}

fn main() -> Result<(), Box<dyn std::error::Error>> {
    let rows: Vec<Row> = MEASURES.iter().map(measure).collect();
    print!("{}", table(&rows));
    if let Some(file) = std::env::args_os().nth(1) {
        store(Path::new(&file), &rows)?;
    }
    Ok(())
}
