//! The examples of docs/LANGUAGE.md print what stands beside them, over the plain implementation and over the machine.
//!
//! An example is a fenced block `framed` with a whole source and, after it, a fenced block `output` with what is printed:
//! the lines of `framerun`, then one line for each look and each write, as `replay` prints it. A block `script` in its place is a script of
//! `replay` that loads nothing. Blocks `rust` are the crate's tests of documentation. Comments in the source, which are
//! comments to the machine too, say what differs from a `framerun`:
//!
//! - `// with F 3, T 0, fuel 10, space 4`, as a line of its own, sets limits (else 256, 256, 100000 and 4096);
//! - `// look PATH`, as a line of its own, looks along the path after the run and the collect;
//! - `// write SPACE`, as a line of its own, writes the program then, into a buffer of so many bytes;
//! - a line that ends with `// N times` stands N times in the source, each time with its comment.
use framed::replay::{replay, Calls, Plain};
use framed::{plain, Refusal};
use std::collections::BTreeSet;
use std::path::Path;

struct Example {
    /// Where its source begins in the page.
    line: usize,
    source: String,
    is_script: bool,
    frames: u32,
    texts: u32,
    fuel: u32,
    space: usize,
    /// The looks and writes after it, as a script has them.
    calls: Vec<String>,
    expected: String,
}

impl Example {
    fn new(line: usize, kind: &str, block: &str, expected: String) -> Example {
        let mut example = Example {
            line,
            source: String::new(),
            is_script: kind == "script",
            frames: 256,
            texts: 256,
            fuel: 100_000,
            space: 4_096,
            calls: Vec::new(),
            expected,
        };
        for line in block.lines() {
            if let Some(settings) = line.strip_prefix("// with ") {
                settings.split(", ").for_each(|setting| example.set(setting));
            } else if let Some(path) = line.strip_prefix("// look ") {
                example.calls.push(format!("look \"{path}\" "));
            } else if let Some(space) = line.strip_prefix("// write ") {
                example.calls.push(format!("write {space} "));
            }
            for _ in 0..times(line) {
                example.source.push_str(line);
                example.source.push('\n');
            }
        }
        example
    }

    fn set(&mut self, setting: &str) {
        let (name, number) = setting.split_once(' ').expect("a setting is a name and a number");
        let number: u32 = number.parse().expect("a setting has a number");
        match name {
            "F" => self.frames = number,
            "T" => self.texts = number,
            "fuel" => self.fuel = number,
            "space" => self.space = number as usize,
            _ => panic!("line {}: no setting `{setting}`", self.line),
        }
    }

    /// Whether `framerun` makes just the calls of this example.
    fn is_framerun(&self) -> bool {
        let limits = (self.frames, self.texts, self.fuel, self.space);
        limits == (256, 256, 100_000, 4_096) && self.calls.is_empty() && !self.is_script
    }
}

/// How often a line stands in the source.
fn times(line: &str) -> usize {
    line.rsplit_once("// ")
        .and_then(|(_, comment)| comment.strip_suffix(" times")?.parse().ok())
        .unwrap_or(1)
}

/// The examples of the page. Every `framed` or `script` block has its `output` block, and the other way round.
fn examples() -> Vec<Example> {
    let page = Path::new(env!("CARGO_MANIFEST_DIR")).join("../../docs/LANGUAGE.md");
    let page = std::fs::read_to_string(&page).unwrap_or_else(|error| panic!("{}: {error}", page.display()));
    let mut examples = Vec::new();
    let mut source: Option<(usize, &str, String)> = None;
    let mut lines = page.lines().enumerate();
    while let Some((at, line)) = lines.next() {
        let Some(kind) = line.strip_prefix("```") else {
            if let (Some((at, ..)), false) = (&source, line.is_empty()) {
                panic!("line {at}: an example without its output");
            }
            continue;
        };
        let mut block = String::new();
        loop {
            let (_, line) = lines.next().expect("a block is closed");
            if line == "```" {
                break;
            }
            block.push_str(line);
            block.push('\n');
        }
        source = match (source, kind) {
            (None, "framed" | "script") => Some((at + 2, kind, block)),
            (Some((at, kind, source)), "output") => {
                examples.push(Example::new(at, kind, &source, block));
                None
            }
            (Some((at, ..)), _) => panic!("line {at}: an example without its output"),
            (None, "output") => panic!("line {}: an output without its example", at + 1),
            (None, _) => None,
        };
    }
    assert!(source.is_none(), "the last example has no output");
    examples
}

fn refused(Refusal(number): Refusal) -> String {
    format!("refused {number}\n")
}

/// What an example prints.
fn printed(example: &Example, calls: &mut impl Calls) -> String {
    if example.is_script {
        let mut out = Vec::new();
        replay(example.source.as_bytes(), Path::new(""), calls, &mut out).unwrap();
        return String::from_utf8(out).unwrap();
    }
    if let Err(refusal) = calls.load("", example.source.as_bytes(), example.frames, example.texts) {
        return refused(refusal);
    }
    let mut shown = vec![0; example.space];
    let report = calls.run(example.fuel, &mut shown).unwrap();
    let totals = calls.collect().unwrap();
    let mut printed = String::from_utf8(shown[..report.bytes].to_vec()).unwrap();
    printed.push_str(&format!(
        "end {} steps {} frames {} texts {}\n",
        report.stop, report.steps, totals.frames, totals.texts
    ));
    let mut out = Vec::new();
    replay(example.calls.concat().as_bytes(), Path::new(""), calls, &mut out).unwrap();
    printed + std::str::from_utf8(&out).unwrap()
}

fn check(print: impl Fn(&Example) -> String) {
    let mut wrong = String::new();
    for example in examples() {
        let printed = print(&example);
        if printed != example.expected {
            wrong.push_str(&format!("line {} prints\n{printed}and not\n{}\n", example.line, example.expected));
        }
    }
    assert!(wrong.is_empty(), "docs/LANGUAGE.md:\n{wrong}");
}

#[test]
fn examples_over_plain() {
    check(|example| printed(example, &mut Plain::default()));
}

#[cfg(feature = "machine")]
#[test]
fn examples_over_machine() {
    check(|example| printed(example, &mut framed::replay::Proved::default()));
}

/// Where nothing is set, the print is that of `framerun`.
#[test]
fn examples_are_printed_runs() {
    let mut runs = examples();
    runs.retain(Example::is_framerun);
    assert!(!runs.is_empty());
    for example in runs {
        let printed = String::from_utf8(plain::framerun(example.source.as_bytes())).unwrap();
        assert_eq!(printed, example.expected, "line {}", example.line);
    }
}

/// Every refusal and every stop is shown by an example; 1, which no model and no script gives, by a block `rust`.
#[test]
fn every_number_is_shown() {
    let mut shown = BTreeSet::new();
    for example in examples() {
        for line in example.expected.lines() {
            let words: Vec<_> = line.split(' ').collect();
            if let ["refused", number] | ["end", number, "steps", _, "frames", _, "texts", _] = words[..] {
                shown.insert(number.to_owned());
            }
        }
    }
    let numbers = [0].into_iter().chain(2..=12).chain(20..=23).chain(31..=37).map(|number: u32| number.to_string());
    for stop in numbers.chain(["fuel".to_owned(), "output".to_owned()]) {
        assert!(shown.contains(&stop), "docs/LANGUAGE.md has no example of {stop}");
    }
}
