//! Inputs for the tests: sources, path texts and damage, from a generator of pseudorandom numbers that starts anew in each
//! test, so that every run tries the same inputs. FRAMED_ROUNDS sets how many.
#![allow(dead_code)]

pub mod blocks;

use framed::{plain, Memories};
use std::fs;
use std::path::{Path, PathBuf};
use std::sync::mpsc;
use std::thread;
use std::time::Duration;

/// The top of the repository.
pub fn top() -> PathBuf {
    Path::new(env!("CARGO_MANIFEST_DIR")).join("../..")
}

pub fn text(bytes: &[u8]) -> String {
    String::from_utf8_lossy(bytes).into_owned()
}

/// The folder `data` of a crate, and the files in it that its `index` names.
pub fn index(name: &str) -> (PathBuf, Vec<String>) {
    let data = top().join("crates").join(name).join("data");
    let index = fs::read_to_string(data.join("index")).unwrap_or_else(|error| panic!("{name}: {error}"));
    (data, index.lines().map(str::to_owned).collect())
}

/// The names in the index of a crate, each with the print of its file behind it, are what the crate's program prints.
pub fn check_index(name: &str, print: impl Fn(&[u8], &Path) -> Vec<u8>) {
    let (data, names) = index(name);
    let mut printed = Vec::new();
    for name in names {
        printed.extend_from_slice(format!("{name}\n").as_bytes());
        printed.extend(print(&fs::read(data.join(name)).unwrap(), &data));
    }
    assert_eq!(text(&printed), text(&fs::read(data.join("../stdout")).unwrap()));
}

/// The files of a folder that end with this, at least one.
fn files(folder: &Path, extension: &str) -> Vec<PathBuf> {
    let mut files: Vec<_> = fs::read_dir(folder)
        .unwrap_or_else(|error| panic!("{}: {error}", folder.display()))
        .map(|entry| entry.unwrap().path())
        .filter(|path| path.extension().is_some_and(|found| found == extension))
        .collect();
    files.sort();
    assert!(!files.is_empty(), "no {extension} in {}", folder.display());
    files
}

/// Every `NAME.EXTENSION` of a folder prints its `NAME.out`.
pub fn check_beside(folder: &Path, extension: &str, print: impl Fn(&[u8]) -> Vec<u8>) {
    for path in files(folder, extension) {
        let stored = fs::read(path.with_extension("out")).unwrap();
        assert_eq!(text(&print(&fs::read(&path).unwrap())), text(&stored), "{}", path.display());
    }
}

pub fn rounds(usual: u64) -> u64 {
    std::env::var("FRAMED_ROUNDS").ok().and_then(|n| n.parse().ok()).unwrap_or(usual)
}

/// Gives up where something takes longer than this.
pub fn within<T: Send + 'static>(limit: Duration, work: impl FnOnce() -> T + Send + 'static) -> T {
    let (sender, receiver) = mpsc::channel();
    let worker = thread::spawn(move || sender.send(work()).unwrap());
    match receiver.recv_timeout(limit) {
        Ok(done) => done,
        Err(mpsc::RecvTimeoutError::Timeout) => panic!("no answer in {limit:?}"),
        Err(mpsc::RecvTimeoutError::Disconnected) => {
            std::panic::resume_unwind(worker.join().expect_err("a worker that did not answer"))
        }
    }
}

/// SplitMix64.
pub struct Random(pub u64);

impl Random {
    pub fn next(&mut self) -> u64 {
        self.0 = self.0.wrapping_add(0x9e37_79b9_7f4a_7c15);
        let mut z = self.0;
        z = (z ^ (z >> 30)).wrapping_mul(0xbf58_476d_1ce4_e5b9);
        z = (z ^ (z >> 27)).wrapping_mul(0x94d0_49bb_1331_11eb);
        z ^ (z >> 31)
    }

    pub fn below(&mut self, n: usize) -> usize {
        (self.next() % n as u64) as usize
    }

    pub fn one_in(&mut self, n: usize) -> bool {
        self.below(n) == 0
    }

    pub fn pick<T: Copy>(&mut self, from: &[T]) -> T {
        from[self.below(from.len())]
    }
}

const NAMES: [&str; 8] = ["a", "b", "c", "list", "next", "caller", "return", "n16_bytes_long__"];
// what the slots with these names most often hold
const INTEGER_NAMES: [&str; 3] = ["a", "b", "n16_bytes_long__"];
const FRAME_NAMES: [&str; 3] = ["list", "next", "caller"];
const CODES: [&str; 5] = ["start", "one", "two", "three", "loop"];
const STRINGS: [&str; 6] = ["", "x", "ab", "a text", "0123456789abcdef", "// [{ no space }]"];
const INTEGERS: [&str; 8] = ["0", "1", "-1", "2", "7", "-3", "000065536", "0"];
const FAR_INTEGERS: [&str; 3] = ["2147483647", "-2147483648", "46341"];
const OPERATORS: [&str; 9] = ["+", "-", "*", "/", "<", "#", "==", "&&", "||"];

/// Writes a source that most often loads, with codes that jump to one another, make frames and texts and let them go.
pub struct Writer<'a> {
    random: &'a mut Random,
    out: String,
}

impl Writer<'_> {
    pub fn source(random: &mut Random) -> String {
        let mut writer = Writer { random, out: String::new() };
        writer.put("frame: [ a := 5, c := \"text\", ");
        if writer.random.one_in(2) {
            writer.put("next := frame: [ a := 1, list := frame: [ b := -2 ] ], ");
        }
        writer.put("Main := frame: [ ");
        for name in CODES {
            writer.put(name);
            writer.put(" := code { ");
            if name == "start" {
                writer.put(
                    "self.a := 3; self.b := 0; self.c := \"t\"; self.list := frame: []; self.next := ^.^; \
                     self.caller := self; self.return := ^.two; self.n16_bytes_long__ := 7; ",
                );
            }
            for _ in 0..1 + writer.random.below(6) {
                writer.instruction(2);
            }
            if writer.random.one_in(2) {
                writer.jump(2);
            }
            writer.put("}, ");
        }
        writer.put("a := 0 ] ]");
        writer.out
    }

    fn put(&mut self, text: &str) {
        self.out.push_str(text);
    }

    fn pick(&mut self, from: &[&str]) {
        let text = self.random.pick(from);
        self.put(text);
    }

    fn code(&mut self, most: usize, depth: usize) {
        self.put("code { ");
        for _ in 0..self.random.below(most) {
            self.instruction(depth);
        }
        self.put("}");
    }

    fn instruction(&mut self, depth: usize) {
        if self.random.one_in(60) {
            // nearly as many slots as a frame may have
            for name in ["s", "t", "u", "v", "w", "x", "y", "z"] {
                self.put(&format!("self.{name} := 0; "));
            }
        }
        match self.random.below(13) {
            0 | 1 => {
                self.put("show ");
                self.base(depth);
                self.put("; ");
            }
            2 => {
                self.put("ifeq ");
                self.integer(depth);
                self.put(" ");
                self.target(depth);
                self.put(" ");
                self.new_self(depth);
                self.put("; ");
            }
            3 => {
                self.put("self.list := frame: [ next := self.list, a := ");
                self.expression(depth.saturating_sub(1));
                self.put(" ]; ");
            }
            4 => self.put(
                "self := frame: [ caller := self, list := self, a := self.a, b := self.b, c := self.c, next := self.next, \
                 return := ^.one, n16_bytes_long__ := 1 ]; ",
            ),
            5 => {
                self.put("self.c := self.c # ");
                self.base(0);
                self.put("; ");
            }
            6 => self.put("self.c := \"\"; "),
            7 => self.jump(depth),
            8 => {
                self.path();
                self.put(" := ");
                self.expression(depth);
                self.put("; ");
            }
            _ => {
                self.put("self.");
                self.pick(&INTEGER_NAMES);
                self.put(" := ");
                self.integer_expression(depth);
                self.put("; ");
            }
        }
    }

    fn jump(&mut self, depth: usize) {
        self.put("jump ");
        self.target(depth);
        self.put(" ");
        self.new_self(depth);
        self.put("; ");
    }

    fn target(&mut self, depth: usize) {
        if depth > 0 && self.random.one_in(8) {
            self.code(4, depth - 1);
        } else if self.random.one_in(20) {
            self.base(0);
        } else if self.random.one_in(6) {
            self.put("self.return");
        } else {
            self.put("^.");
            self.pick(&CODES[1..]);
        }
    }

    fn new_self(&mut self, depth: usize) {
        match self.random.below(20) {
            0 => self.base(depth),
            1 | 2 => self.put("self.caller"),
            _ => self.put("self"),
        }
    }

    fn path(&mut self) {
        if self.random.one_in(20) {
            return self.put("self.seventeenth");
        }
        self.pick(&["^", "^.^", "self", "self", "self", "self.list", "self.caller", "self.next"]);
        for _ in 0..self.random.below(3) {
            self.put(".");
            self.pick(&NAMES);
        }
    }

    fn integer(&mut self, depth: usize) {
        match self.random.below(30) {
            0 => self.base(depth),
            1 => self.pick(&FAR_INTEGERS),
            2..=10 => self.pick(&INTEGERS),
            _ => {
                self.put("self.");
                self.pick(&INTEGER_NAMES);
            }
        }
    }

    fn base(&mut self, depth: usize) {
        match self.random.below(12) {
            0 | 1 => self.pick(&INTEGERS),
            2 => {
                self.put("\"");
                self.pick(&STRINGS);
                self.put("\"");
            }
            3 if depth > 0 && self.random.one_in(4) => self.code(3, depth - 1),
            4 => self.path(),
            5 => self.put("self.c"),
            6 => {
                self.put("self.");
                self.pick(&FRAME_NAMES);
            }
            7 => self.put("^.one"),
            _ => {
                self.put("self.");
                self.pick(&INTEGER_NAMES);
            }
        }
    }

    fn integer_expression(&mut self, depth: usize) {
        self.integer(depth);
        let operator = self.random.pick(&["", " + ", " - ", " * ", " / ", " < ", " == ", " && ", " || "]);
        if !operator.is_empty() {
            self.put(operator);
            self.integer(depth);
        }
    }

    fn expression(&mut self, depth: usize) {
        match self.random.below(10) {
            0 | 1 if depth > 0 => {
                self.put("frame: [ ");
                for name in &NAMES[..self.random.below(5)] {
                    self.put(name);
                    self.put(" := ");
                    self.expression(depth - 1);
                    self.put(", ");
                }
                self.put("]");
            }
            2 => {
                self.put("!");
                self.base(depth);
            }
            3 => {
                self.base(depth);
                self.put(" ");
                self.pick(&OPERATORS);
                self.put(" ");
                self.base(depth);
            }
            4 | 5 => self.integer_expression(depth),
            _ => self.base(depth),
        }
    }
}

/// Tokens, and bytes that are none, to be put into a source.
const PIECES: [&str; 40] = [
    "frame", "code", "self", "show", "jump", "ifeq", ":", ":=", "==", "&&", "||", ".", "^", "!", "+", "-", "*", "/", "<",
    "#", ";", ",", "[", "]", "{", "}", "\"", "=", "&", "|", "//", "\n", " ", "Main", "start", "0", "-1", "99999999999",
    "a_name_of_17_byte", "\u{1}",
];

/// A source with a few bytes or pieces taken out, doubled or put in.
pub fn damaged_source(source: &[u8], random: &mut Random) -> Vec<u8> {
    let mut source = source.to_vec();
    for _ in 0..1 + random.below(4) {
        let at = random.below(source.len() + 1);
        let end = (at + random.below(12)).min(source.len());
        match random.below(5) {
            0 => {
                source.drain(at..end);
            }
            1 => {
                let part = source[at..end].to_vec();
                let to = random.below(source.len() + 1);
                source.splice(to..to, part);
            }
            2 if at < source.len() => source[at] = random.next() as u8,
            _ => {
                let piece = random.pick(&PIECES);
                source.splice(at..at, piece.bytes());
            }
        }
    }
    source
}

/// Bytes of which most are those of tokens.
pub fn random_bytes(random: &mut Random) -> Vec<u8> {
    let length = random.below(200);
    (0..length)
        .map(|_| if random.one_in(20) { random.next() as u8 } else { 32 + random.below(95) as u8 })
        .collect()
}

/// A long source: as many instructions and expressions as fit.
pub fn long_source(random: &mut Random) -> String {
    let mut source = String::from("frame: [ Main := frame: [ start := code { ");
    while source.len() < 15_000 + random.below(2_000) {
        let (a, b) = (random.pick(&NAMES), random.pick(&NAMES));
        match random.below(4) {
            0 => source.push_str(&format!("self.{a} := self.{b} + 1; ")),
            1 => source.push_str(&format!("self.{a}                    := 1; // {b}\n")),
            2 => source.push_str("show 1; "),
            _ => source.push_str(&format!("self.{a} := frame: [ {b} := 1 ];                          ")),
        }
    }
    source.push_str("} ] ]");
    source
}

pub fn path_text(random: &mut Random) -> Vec<u8> {
    let mut path = String::from(random.pick(&["self", "^", "self", "^", "^.^", "", "// no path\nself", " self "]));
    for _ in 0..random.below(5) {
        path.push_str(random.pick(&[".", ".", ".", ".", " . ", "..", ""]));
        path.push_str(random.pick(&NAMES));
        if random.one_in(6) {
            path.push_str(random.pick(&[".Main", ".start", ".absent", ".frame", ".3", " x", "\"", "."]));
        }
    }
    path.into_bytes()
}

/// The words of the memories that a program uses: where damage matters most.
fn word_place(random: &mut Random) -> usize {
    match random.below(8) {
        0 => random.below(12),
        1 => 64 + random.below(200),
        2 => 2_240 + random.below(40),
        3 => 2_368 + random.below(20),
        4 => 2_496 + random.below(120),
        5 => 4_544 + random.below(200),
        6 => 7_104 + random.below(400),
        _ => random.below(16_384),
    }
}

fn heap_place(random: &mut Random) -> usize {
    match random.below(6) {
        0 => random.below(8),
        1 | 2 => 128 + random.below(51 * 12),
        3 => 13_184 + random.below(16),
        // a maker
        4 => 130 + 51 * random.below(12),
        _ => random.below(16_384),
    }
}

fn value(old: u32, random: &mut Random) -> u32 {
    match random.below(6) {
        0 => old.wrapping_add(1),
        1 => old.wrapping_sub(1),
        2 => random.below(20) as u32,
        3 => random.pick(&[0, 1, 16, 17, 31, 37, 38, 64, 65, 66, 128, 255, 256, 257, 512, 1_024, u32::MAX]),
        4 => old ^ (1 << random.below(32)),
        _ => random.next() as u32,
    }
}

/// Writes some words and bytes anew.
pub fn damage(memories: &mut Memories, random: &mut Random) {
    for _ in 0..1 + random.below(3) {
        match random.below(10) {
            0..=4 => {
                let at = word_place(random);
                memories.program[at] = value(memories.program[at], random);
            }
            5..=7 => {
                let at = heap_place(random);
                memories.heap[at] = value(memories.heap[at], random);
            }
            8 => {
                let at = random.below(256);
                memories.literals[at] = random.next() as u8;
            }
            _ => {
                let at = random.below(256);
                memories.texts[at] = random.next() as u8;
            }
        }
    }
}

/// Memories of which one has another length.
pub fn other_length(memories: &Memories, random: &mut Random) -> Memories {
    let mut memories = memories.clone();
    let length = random.pick(&[0, 1, 8_191, 8_192, 8_193, 16_383, 16_385]);
    match random.below(4) {
        0 => memories.program = vec![0; length].into(),
        1 => memories.heap = vec![0; length].into(),
        2 => memories.literals = vec![0; if length == 8_192 { 16_384 } else { length }].into(),
        _ => memories.texts = vec![0; length].into(),
    }
    memories
}

/// All sources that lie beside the repository's programs.
pub fn stored_sources() -> Vec<Vec<u8>> {
    ["examples", "crates/framecorpus/data", "crates/replaycorpus/data", "crates/replay/data"]
        .iter()
        .flat_map(|folder| files(&top().join(folder), "framed"))
        .map(|path| fs::read(path).unwrap())
        .collect()
}

/// Program words to which entries are added, over a cleared heap: whole memories that no source has. docs/LAYOUT.md has the
/// words.
pub struct Built(pub Memories);

impl Built {
    pub fn new() -> Built {
        let mut memories = Memories::new();
        // F and T
        memories.program[..2].copy_from_slice(&[256, 256]);
        Built(memories)
    }

    /// The number of one more entry, of which this word counts how many there are.
    fn entry(&mut self, count: usize) -> u32 {
        self.0.program[count] += 1;
        self.0.program[count] - 1
    }

    fn words(&mut self, at: usize, words: &[u32]) {
        self.0.program[at..at + words.len()].copy_from_slice(words);
    }

    pub fn name(&mut self, bytes: &[u8]) -> u32 {
        let k = self.entry(2);
        let at = 64 + 17 * k as usize;
        self.words(at, &[bytes.len() as u32]);
        self.words(at + 1, &bytes.iter().map(|&byte| byte.into()).collect::<Vec<_>>());
        k
    }

    pub fn literal(&mut self, bytes: &[u8]) -> u32 {
        let k = self.entry(3);
        self.words(2_240 + k as usize, &[bytes.len() as u32]);
        self.0.literals[64 * k as usize..][..bytes.len()].copy_from_slice(bytes);
        k
    }

    /// Kind, a, b, slot name and slot link.
    pub fn expression(&mut self, words: [u32; 5]) -> u32 {
        let x = self.entry(4);
        self.words(7_104 + 5 * x as usize, &words);
        x
    }

    /// A path that holds these names: kind 2 from self, 3 from the program.
    pub fn path(&mut self, kind: u32, names: &[u32]) -> u32 {
        let first = self.0.program[7];
        self.0.program[7] += names.len() as u32;
        self.words(2_496 + first as usize, names);
        self.expression([kind, first, names.len() as u32, 0, 0])
    }

    /// A code of one instruction, of which this is the kind with a, b and c.
    pub fn code(&mut self, [kind, a, b, c]: [u32; 4]) -> u32 {
        let (k, i) = (self.entry(6), self.entry(5));
        self.words(2_368 + k as usize, &[1 + i]);
        self.words(4_544 + 5 * i as usize, &[kind, a, b, c, 0]);
        k
    }

    /// One more instruction behind the last, in the same code.
    pub fn more(&mut self, [kind, a, b, c]: [u32; 4]) {
        let i = self.entry(5);
        let at = 4_544 + 5 * i as usize;
        self.words(at, &[kind, a, b, c, 0]);
        self.words(at - 1, &[1]);
    }

    /// Makes an expression hold a code that was added after it.
    pub fn hold(&mut self, x: u32, code: u32) {
        self.words(7_104 + 5 * x as usize, &[4, code]);
    }

    /// The number that the next expression has.
    pub fn next(&self) -> u32 {
        self.0.program[4]
    }

    /// The memories, with these slots in the program frame.
    pub fn whole(mut self, slots: u32) -> Memories {
        self.0.program[8] = slots;
        let m = &self.0;
        assert!(plain::is_whole(&m.program, &m.heap, &m.literals, &m.texts));
        self.0
    }
}

/// Frames outside code, each in the one slot `a` of the one around it; innermost a code that assigns so many frames, each in
/// the one slot of the one around it; innermost a code that does the same; and so on. In the last of them a path climbs
/// to the program frame and goes down again.
pub fn deep(outside: u32, codes: u32, inside: u32) -> Memories {
    let mut built = Built::new();
    let (a, b) = (built.name(b"a"), built.name(b"b"));
    for _ in 0..outside {
        built.expression([5, 1, 0, a, 0]);
    }
    for k in 0..codes {
        built.expression([4, k, 0, a, 0]);
        let assigned = built.next();
        assert_eq!(built.code([0, 0, 0, assigned]), k);
        for _ in 0..inside {
            built.expression([5, 1, 0, a, 0]);
        }
    }
    let join = built.next();
    built.expression([12, join + 1, join + 2, a, 0]);
    built.path(3, &[b]);
    let literal = built.literal(&[b'x'; 64]);
    built.expression([1, literal, 0, 0, 0]);
    built.whole(1)
}

/// `self := ^ == self` as code 0, in so many frames, each in the one slot of the one around it. The codes that are compared
/// are to be added.
pub fn comparing(frames: u32) -> Built {
    let mut built = Built::new();
    let a = built.name(b"a");
    built.expression([4, 0, 0, a, 0]);
    built.code([0, 0, 0, 1]);
    for _ in 0..frames {
        built.expression([5, 1, 0, a, 0]);
    }
    let equal = built.next();
    built.expression([13, equal + 1, equal + 2, a, 0]);
    built.path(3, &[]);
    built.path(2, &[]);
    built
}

/// Makes these the codes that are compared, by the next step.
pub fn compare_next(m: &mut Memories, k: u32, l: u32) {
    // self, program, position, end mark
    m.heap[..6].copy_from_slice(&[3, l, 3, k, 1, 0]);
}

/// Adds codes in frames in codes: each assigns so many frames, each in the one slot of the one around it, and innermost
/// stands the next code, by itself or as both operands of an operation; in the last code it is this integer. Gives the first.
pub fn code_chain(built: &mut Built, codes: u32, frames: u32, doubled: bool, integer: u32) -> u32 {
    let first = built.0.program[6];
    let mut x = built.expression([0; 5]);
    for _ in 0..codes {
        let assigned = built.next();
        let code = built.code([0, 0, 0, assigned]);
        built.hold(x, code);
        for _ in 0..frames {
            built.expression([5, 1, 0, 0, 0]);
        }
        if doubled {
            let operand = built.next() + 1;
            built.expression([13, operand, operand, 0, 0]);
        }
        x = built.expression([0, integer, 0, 0, 0]);
    }
    first
}
