//! The stack that each call of the static library takes: the known worst inputs are tried on a painted stack, and the
//! deepest byte that changed is held to the figures in include/framed.h and README. What this prints is to be copied there
//! after a change of the library.
#![cfg(all(feature = "machine", target_arch = "x86_64"))]

mod common;

use common::{code_chain, compare_next, comparing, damage, damaged_source, deep, long_source, other_length};
use common::{path_text, random_bytes, rounds, stored_sources, Random, Writer};
use framed::{plain, Memories, MAKERS, TEXT_BUFFER};
use std::arch::asm;
use std::collections::BTreeMap;
use std::path::Path;

// Only their addresses are used: `Stack::call` puts the arguments in place.
extern "C" {
    fn framed_load();
    fn framed_run();
    fn framed_collect();
    fn framed_look();
    fn framed_look_text();
    fn framed_makers();
    fn framed_write();
}

const WORDS: usize = 1 << 18;
const PAINT: u64 = 0x48e2_7d1b_f096_c3a5;

/// The calls that take more over memories which load did not make.
#[derive(Clone, Copy)]
struct Names {
    run: &'static str,
    write: &'static str,
}

const LOADED: Names = Names { run: "run", write: "write" };
const ANY: Names = Names { run: "run over any memories", write: "write over any memories" };

struct Stack {
    /// All painted, but during a call.
    words: Vec<u64>,
    /// The fewest and the most bytes that each call took.
    taken: BTreeMap<&'static str, (usize, usize)>,
}

impl Stack {
    fn new() -> Stack {
        Stack { words: vec![PAINT; WORDS], taken: BTreeMap::new() }
    }

    /// Calls a function on the painted stack. The return address and the arguments from the seventh on count as taken.
    fn call(&mut self, name: &'static str, function: unsafe extern "C" fn(), arguments: &[u64]) -> u64 {
        let (registers, rest) = arguments.split_at(6);
        // 16 divides the address of the seventh argument
        let at = WORDS - 8 - self.words.as_ptr() as usize / 8 % 2;
        let top = at + rest.len();
        self.words[at..top].copy_from_slice(rest);
        let answer;
        // SAFETY: a call as C makes it, of a function that takes these arguments; nobody else uses `words` meanwhile
        unsafe {
            asm!(
                "mov r12, rsp", "mov rsp, r13", "call rax", "mov rsp, r12",
                inout("rax") function as usize => answer,
                in("rdi") registers[0], in("rsi") registers[1], in("rdx") registers[2],
                in("rcx") registers[3], in("r8") registers[4], in("r9") registers[5],
                in("r13") self.words.as_mut_ptr().add(at), out("r12") _, clobber_abi("C"),
            );
        }
        let deepest = self.words.iter().position(|&word| word != PAINT).unwrap();
        let unchanged = (self.words[deepest] ^ PAINT).trailing_zeros() as usize / 8;
        let bytes = 8 * (top - deepest) - unchanged;
        self.words[deepest..].fill(PAINT);
        let (least, most) = self.taken.entry(name).or_insert((bytes, bytes));
        (*least, *most) = (bytes.min(*least), bytes.max(*most));
        answer
    }

    fn load(&mut self, m: &mut Memories, source: &[u8], frames: u64, texts: u64) -> bool {
        let source = [source.as_ptr() as u64, source.len() as u64, frames, texts];
        self.call("load", framed_load, &[&source[..], &lent(m)].concat()) == 0
    }

    /// The other calls. Run and write count under these names.
    fn go_on(&mut self, names: Names, m: &mut Memories, random: &mut Random) {
        let (mut first, mut second) = ([0u64], [0u64]);
        let (first, second) = (part(&mut first)[0], part(&mut second)[0]);
        let mut out = vec![0u8; random.pick(&[0, 65, 4_096])];
        let out = part(&mut out);
        let mut path = path_text(random);
        let path = part(&mut path);
        let fuel = random.pick(&[1, 7, 200, 3_000]);
        self.call(names.run, framed_run, &[&lent(m)[..], &[fuel], &out, &[first, second]].concat());
        self.call("collect", framed_collect, &[&lent(m)[..], &[first, second]].concat());
        self.call("look", framed_look, &[&lent(m)[..], &path, &[first, second]].concat());
        self.call("look_text", framed_look_text, &[&lent(m)[..], &path, &out].concat());
        let mut counts = [0u32; MAKERS];
        self.call("makers", framed_makers, &[&lent(m)[..], &part(&mut counts)[..1]].concat());
        let mut text = vec![0u8; TEXT_BUFFER];
        self.call(names.write, framed_write, &[&lent(m)[..], &part(&mut text), &[first]].concat());
    }

    fn source(&mut self, source: &[u8], random: &mut Random) {
        let mut m = Memories::new();
        let (frames, texts) = (random.pick(&[256, 256, 40, 12, 3, 2]), random.pick(&[256, 8, 0]));
        if self.load(&mut m, source, frames, texts) {
            (0..3).for_each(|_| self.go_on(LOADED, &mut m, random));
        }
    }

    /// Damaged memories, refused or not, and some of another length.
    fn damaged(&mut self, source: &[u8], random: &mut Random) {
        let mut m = Memories::new();
        assert!(self.load(&mut m, source, 256, 256));
        self.go_on(LOADED, &mut m, random);
        damage(&mut m, random);
        let mut other = other_length(&m, random);
        self.go_on(ANY, &mut m, random);
        self.go_on(ANY, &mut other, random);
        assert!(!self.load(&mut other, source, 256, 256));
    }
}

/// Address and length.
fn part<T>(slice: &mut [T]) -> [u64; 2] {
    [slice.as_mut_ptr() as u64, slice.len() as u64]
}

fn lent(m: &mut Memories) -> Vec<u64> {
    [part(&mut m.program), part(&mut m.heap), part(&mut m.literals), part(&mut m.texts)].concat()
}

/// What stands in itself, at the `@`.
const FORMS: [&str; 12] = [
    "frame: [ x := @ ]", "code { self.x := @; }", "code { self.x := !@; }", "code { self.x := 1 == @; }",
    "code { self.x := @ == 1; }", "code { ^.x.x := @; }", "code { show @; }", "code { jump @ self; }",
    "code { ifeq 1 @ self; }", "code { ifeq 1 self @; }", "code { self.x := frame: [ x := @ ]; }",
    "frame: [ x := code { self.x := @; } ]",
];
const INNERMOST: [&str; 9] =
    ["1", "\"a\"", "self", "^.x", "!self.x", "1 + 2", "\"a\" # -2147483648", "frame: []", "code { show self; }"];

/// A form so many times around something.
fn around(form: &str, times: usize, innermost: &str) -> String {
    (0..times).fold(innermost.to_string(), |inner, _| form.replace('@', &inner))
}

/// A source with a form so many times around something, outside code and in code that runs.
fn nested(form: &str, times: usize, innermost: &str) -> [String; 2] {
    let x = around(form, times, innermost);
    [x.clone(), format!("code {{ self.x := {x}; show self.x; }}")]
        .map(|x| format!("frame: [ Main := frame: [ start := code {{ jump ^.^.x self; }} ], x := {x} ]"))
}

/// A source with a form so many times around something, twice, which are compared in so many frames.
fn compared(form: &str, times: usize, innermost: &str, frames: usize) -> String {
    let x = around(form, times, innermost);
    let equal = around(FORMS[0], frames, "^.^.x == ^.^.y");
    format!("frame: [ Main := frame: [ start := code {{ self.x := {equal}; }} ], x := {x}, y := {x} ]")
}

/// `self :=` so many frame literals, each the one slot of the one around it, and innermost a join. No source nests so
/// deep. No frame is in use, so that there is room for 256. docs/LAYOUT.md has the words.
fn chain(levels: usize) -> Memories {
    let mut m = Memories::new();
    let join = levels as u32;
    // F, T, names, literals, expressions, instructions, codes
    m.program[..7].copy_from_slice(&[256, 256, 1, 1, join + 4, 1, 1]);
    m.program[64..66].copy_from_slice(&[1, b'a'.into()]);
    // the code begins with instruction 0, whose words are all 0: self := expression 0
    m.program[2_368] = 1;
    m.heap[4] = 1;
    // the frame literals; the join, its integer and its literal; the code, which must stand somewhere
    let mut expressions = vec![[5, 1, 0, 0, 0]; levels];
    expressions.push([12, join + 1, join + 2, 0, 0]);
    expressions.extend([[0, i32::MIN as u32, 0, 0, 0], [1, 0, 0, 0, 0], [4, 0, 0, 0, 0]]);
    m.program[7_104..][..5 * expressions.len()].copy_from_slice(expressions.as_flattened());
    assert!(plain::is_whole(&m.program, &m.heap, &m.literals, &m.texts));
    m
}

fn measured() -> Stack {
    let (mut stack, random) = (Stack::new(), &mut Random(1));
    let stored = stored_sources();
    stored.iter().for_each(|source| stack.source(source, random));
    for (form, innermost) in FORMS.into_iter().flat_map(|form| INNERMOST.map(|innermost| (form, innermost))) {
        for source in [1, 6, 7, 8, 13, 14, 15, 16].into_iter().flat_map(|times| nested(form, times, innermost)) {
            stack.source(source.as_bytes(), random);
        }
    }
    for (form, innermost) in FORMS.into_iter().flat_map(|form| INNERMOST.map(|innermost| (form, innermost))) {
        for (times, frames) in [(7, 0), (7, 13), (15, 0), (15, 13), (14, 13), (13, 13)] {
            let (source, mut m) = (compared(form, times, innermost, frames), Memories::new());
            if stack.load(&mut m, source.as_bytes(), 256, 256) {
                stack.go_on(LOADED, &mut m, random);
            }
        }
    }
    for _ in 0..rounds(300) {
        let source = Writer::source(random).into_bytes();
        let other = damaged_source(&stored[random.below(stored.len())], random);
        let long = long_source(random).into_bytes();
        for source in [&source, &other, &long, &damaged_source(&source, random), &random_bytes(random)] {
            stack.source(source, random);
        }
        stack.damaged(&source, random);
    }
    for levels in [1, 16, 255, 256, 257, 1_020] {
        stack.go_on(ANY, &mut chain(levels), random);
    }
    // outside code, in one code, and in as many codes as there can be
    for (outside, codes, inside) in [(1_020, 1, 0), (0, 1, 1_020), (893, 128, 0), (125, 128, 6)] {
        stack.go_on(ANY, &mut deep(outside, codes, inside), random);
    }
    // a code is compared with the next inside it, in no frame or in as many as can be made
    for (outer, codes, frames, doubled) in [
        (0, 127, 7, false),
        (0, 127, 6, true),
        (0, 2, 507, false),
        (255, 127, 5, false),
        (255, 127, 4, true),
        (255, 2, 380, false),
    ] {
        let mut built = comparing(outer);
        let first = code_chain(&mut built, codes, frames, doubled, 7);
        let mut m = built.whole(1);
        compare_next(&mut m, first, first + 1);
        stack.go_on(ANY, &mut m, random);
    }
    stack
}

/// The deepest bytes of a word may have had the paint's colour by chance.
fn whole_words(bytes: usize) -> usize {
    bytes.next_multiple_of(8)
}

/// How much more a load takes for one more level of code.
fn level() -> usize {
    let [less, more] = [14, 15].map(|times| {
        let mut stack = Stack::new();
        assert!(stack.load(&mut Memories::new(), nested(FORMS[1], times, "self")[0].as_bytes(), 256, 256));
        whole_words(stack.taken["load"].1)
    });
    more - less
}

fn file(name: &str) -> String {
    std::fs::read_to_string(Path::new(env!("CARGO_MANIFEST_DIR")).join("../..").join(name)).unwrap()
}

/// The numbers of a text, as `15,825`.
fn numbers(text: &str) -> Vec<usize> {
    text.split_whitespace().filter_map(|word| word.replace(',', "").parse().ok()).collect()
}

/// The figures in the comment above the prototype of a call.
fn header(call: &str) -> Vec<usize> {
    let header = file("include/framed.h");
    let (above, _) = header.split_once(&format!(" framed_{call}(")).unwrap();
    let (_, comment) = above.rsplit_once("/*").unwrap();
    numbers(comment.split_once("Stack: at most ").expect(call).1)
}

/// The figures in the row of a call.
fn readme(call: &str) -> Vec<usize> {
    let readme = file("README.md");
    let (_, table) = readme.split_once("| Call | Stack, at most |").unwrap();
    let (_, row) = table.split_once(&format!("\n| {call} | ")).expect(call);
    numbers(row.split_once('|').unwrap().0)
}

#[test]
fn figures() {
    let (taken, level) = (measured().taken, level());
    taken.iter().for_each(|(name, (least, most))| println!("{name}: at least {least}, at most {most} bytes"));
    println!("load, a level of code: {level} bytes");
    for (name, &(_, most)) in &taken {
        let figure = match name.strip_suffix(" over any memories") {
            Some(call) => header(call)[1],
            None => header(name)[0],
        };
        assert!(most <= figure && figure < most + 1_024, "{name} takes {most} bytes, the header says {figure}");
    }
    for call in ["run", "collect", "look", "look_text", "makers", "write"] {
        assert_eq!(readme(call), header(call), "README, {call}");
    }
    assert_eq!(readme("load"), [header("load")[0], whole_words(taken["load"].0), level], "README, load");
}
