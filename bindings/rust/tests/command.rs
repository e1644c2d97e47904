//! The command `framed`: its exit statuses, what it prints and what it says.
#![cfg(feature = "machine")]

mod common;

use common::{index, top};
use framed::Found;
use std::fs::{self, File};
use std::io::Write;
use std::path::{Path, PathBuf};
use std::process::{Command, Output, Stdio};
use std::sync::Once;

/// A folder for the models of the tests; each test has names of its own.
fn folder() -> PathBuf {
    let folder = Path::new(env!("CARGO_TARGET_TMPDIR")).join("command");
    fs::create_dir_all(&folder).unwrap();
    folder
}

/// Writes a file into the folder, and gives its name.
fn file(name: &'static str, contents: impl AsRef<[u8]>) -> &'static str {
    fs::write(folder().join(name), contents).unwrap();
    name
}

/// The command with arguments parted by spaces.
fn command(directory: &Path, arguments: &str) -> Command {
    let mut command = Command::new(env!("CARGO_BIN_EXE_framed"));
    command.args(arguments.split_ascii_whitespace()).current_dir(directory).stdin(Stdio::null());
    command
}

/// The status, standard output and standard error.
type Answer = (i32, String, String);

fn answer(output: Output) -> Answer {
    let text = |bytes: Vec<u8>| String::from_utf8(bytes).unwrap();
    (output.status.code().expect("a status"), text(output.stdout), text(output.stderr))
}

/// The command in the folder of the tests.
fn framed(arguments: &str) -> Answer {
    answer(command(&folder(), arguments).output().unwrap())
}

/// The command at the top of the repository.
fn framed_top(arguments: &str) -> Answer {
    answer(command(&top(), arguments).output().unwrap())
}

/// The command with bytes on standard input.
fn framed_input(arguments: &str, input: &str) -> Answer {
    let mut command = command(&folder(), arguments);
    let mut child = command.stdin(Stdio::piped()).stdout(Stdio::piped()).stderr(Stdio::piped()).spawn().unwrap();
    child.stdin.take().unwrap().write_all(input.as_bytes()).unwrap();
    answer(child.wait_with_output().unwrap())
}

fn is(answer: Answer, status: i32, out: &str, err: &str) {
    assert_eq!((answer.0, answer.1.as_str(), answer.2.as_str()), (status, out, err));
}

/// The lines of a message match lines in which `*` stands for some words.
fn says(message: &str, wanted: &[&str]) {
    let fits = |line: &str, wanted: &str| match wanted.split_once('*') {
        Some((front, back)) => {
            line.len() > front.len() + back.len() && line.starts_with(front) && line.ends_with(back)
        }
        None => line == wanted,
    };
    let lines: Vec<&str> = message.lines().collect();
    let fit = lines.len() == wanted.len() && lines.iter().zip(wanted).all(|(line, wanted)| fits(line, wanted));
    assert!(fit, "wanted\n{}\nfound\n{message}", wanted.join("\n"));
}

/// A model whose start has this code.
fn start(code: &str) -> String {
    format!("frame: [ Main := frame: [ start := code {{ {code} }} ] ]\n")
}

// ---- run

#[test]
fn run_prints_what_is_stored() {
    for name in ["branch", "call", "drive", "drive_repaired", "exception", "hello"] {
        let stored = fs::read_to_string(top().join(format!("examples/{name}.out"))).unwrap();
        is(framed_top(&format!("run examples/{name}.framed")), 0, &stored, "");
    }
}

/// Sources of the corpus print what `framerun` prints; refused ones nothing on standard output.
#[test]
fn run_is_framerun() {
    let (data, names) = index("framecorpus");
    for name in names {
        let printed = framed::plain::framerun(&fs::read(data.join(&name)).unwrap());
        let printed = String::from_utf8(printed).unwrap();
        let (status, out, err) = answer(command(&data, &format!("run {name}")).output().unwrap());
        let last = printed.lines().next_back().unwrap();
        match last.split(' ').collect::<Vec<_>>().as_slice() {
            ["refused", number] => {
                assert_eq!((status, out.as_str()), (2, ""), "{name}");
                assert!(err.starts_with(&format!("{name}:")), "{name}: {err}");
                assert!(err.contains(&format!(": refused {number}: ")), "{name}: {err}");
            }
            // `run` goes on where framerun's buffer is full
            ["end", "output", ..] => assert!(out.starts_with(printed.strip_suffix(&format!("{last}\n")).unwrap())),
            ["end", "0", ..] => assert_eq!((status, &out, err.as_str()), (0, &printed, ""), "{name}"),
            ["end", "fuel", ..] => assert_eq!((status, &out), (3, &printed), "{name}"),
            [_, number, ..] => {
                assert_eq!((status, &out), (1, &printed), "{name}");
                let (place, words) = err.split_once(": ").unwrap();
                assert!(words.starts_with(&format!("end {number}: ")) && place.split(':').count() == 3, "{err}");
            }
            _ => panic!("{name} prints {last}"),
        }
    }
}

#[test]
fn run_ends_by_number() {
    let name = file("end.framed", start("show 1;\n\tself.a :=  self.b  // words\n  +   1; show 2;"));
    let (status, out, err) = framed("run end.framed");
    assert_eq!((status, out.as_str()), (1, "1\nend 31 steps 1 frames 3 texts 0\n"));
    says(
        &err,
        &[
            &format!("{name}:2:2: end 31: no rule applies"),
            "  self.a := self.b + 1;",
            "  operand `self.b` (2:13): no slot `b` in self",
        ],
    );
}

/// Each end has its words, its place and a detail.
#[test]
fn run_ends_by_each_number() {
    let slots: String = (0..17).map(|i| format!("self.s{i} := 0; ")).collect();
    let cases = [
        (31, "jump 1 self;".to_owned(), "no rule applies", "operand `1` (1:48): "),
        (31, "self.a.b := 1;".to_owned(), "no rule applies", "target `self.a.b` (1:43): "),
        (32, "self.a := 1 / 0;".to_owned(), "divisor 0", "operand `0` (1:57): "),
        (
            33,
            "self.a := 2147483647 + 1;".to_owned(),
            "integer result out of range",
            "operation `2147483647 + 1` (1:53): ",
        ),
        (34, format!("self.a := \"{}\" # 1;", "x".repeat(64)), "joined text above 64 bytes", "operation `\"xx"),
        (35, slots, "a 17th slot", "target `self.s16` (1:273): "),
        (36, "self.a := frame: [ ];".to_owned(), "no room for the frames that the instruction makes", ""),
        (37, "self.a := \"a\" # 1;".to_owned(), "no room for its made texts", ""),
    ];
    for (number, code, words, why) in cases {
        let texts = if number == 37 { 0 } else { 1 };
        let (status, out, err) = framed_input(&format!("run - --frames 3 --texts {texts}"), &start(&code));
        assert_eq!(status, 1, "{code}");
        assert!(out.starts_with(&format!("end {number} steps ")), "{code}: {out}");
        let lines: Vec<&str> = err.lines().collect();
        assert!(lines[0].starts_with("-:1:") && lines[0].ends_with(&format!(": end {number}: {words}")), "{err}");
        let more = &["  `framed where` tells which instructions made the frames"][usize::from(number != 36)..];
        assert!(lines[2].starts_with(&format!("  {why}")) && lines[3..] == *more, "{err}");
    }
}

/// An instruction is printed on one line, with its strings as they are, and cut where it is long.
#[test]
fn long_instruction() {
    let slots: Vec<String> = (0..12).map(|i| format!("slot{i} := \"two  spaces // {i}\"")).collect();
    let name =
        file("long_instruction.framed", start(&format!("self.a.b := frame: [\n{} ];", slots.join(",\n\t"))));
    let (status, _, err) = framed(&format!("run {name}"));
    assert_eq!(status, 1);
    let instruction = err.lines().nth(1).unwrap();
    let front = "  self.a.b := frame: [ slot0 := \"two  spaces // 0\", slot1 := \"two  spaces // 1\", slot2 :=";
    assert!(instruction.starts_with(front) && instruction.ends_with(" .."), "{instruction}");
    assert!((95..=102).contains(&instruction.len()), "{}", instruction.len());
}

#[test]
fn run_refused() {
    let name = file("refused.framed", "frame: [\n\tMain := frame: [ start = code { } ] ]\n");
    let (status, out, err) = framed(&format!("run {name} --look self"));
    assert_eq!((status, out.as_str()), (2, ""));
    says(
        &err,
        &[
            "refused.framed:2:25: refused 4: bytes that form no token: *",
            "  \tMain := frame: [ start = code { } ] ]",
            "  \t                       ^",
        ],
    );
}

#[test]
fn run_limits() {
    let name = file("limits.framed", start("self.n := 7;"));
    let (status, out, err) = framed(&format!("run {name} --frames 2"));
    assert_eq!((status, out.as_str()), (2, ""));
    says(&err, &["limits.framed: refused 2: F or T is outside its range: *"]);
    assert_eq!(framed(&format!("run {name} --frames 257")).0, 2);
    assert_eq!(framed(&format!("run {name} --texts 257")).0, 2);
    is(framed(&format!("run --texts 0 {name} --frames 3")), 0, "end 0 steps 1 frames 3 texts 0\n", "");
}

const ENDLESS: &str = "frame: [ Main := frame: [ start := code { self.n := 0; jump ^.next self; },
    next := code { self.n := self.n + 1; jump ^.next self; } ] ]";

#[test]
fn run_fuel() {
    let name = file("fuel.framed", ENDLESS);
    let fuel = |steps| format!("{name}: fuel: stopped after {steps}; --fuel N gives more\n");
    let end = |steps| format!("end fuel steps {steps} frames 3 texts 0\n");
    is(framed("run fuel.framed"), 3, &end("100000"), &fuel("100000 steps"));
    is(framed("run fuel.framed --fuel 0"), 3, &end("0"), &fuel("0 steps"));
    is(framed("run fuel.framed --fuel 1"), 3, &end("1"), &fuel("1 step"));
    // more than one slice
    let out = format!("{}self.n integer 1250000\n", end("2500002"));
    is(framed("run fuel.framed --fuel 2500002 --look self.n"), 3, &out, &fuel("2500002 steps"));
    // fuel that is just enough
    file("enough.framed", start("show 1; show 2;"));
    is(framed("run enough.framed --fuel 2"), 0, "1\n2\nend 0 steps 2 frames 3 texts 0\n", "");
}

/// More is shown than any buffer holds.
#[test]
fn run_shows_all() {
    let line = "x".repeat(64);
    let code = format!(
        "self.n := 5000; jump ^.next self; }}, next := code {{ show \"{line}\";
        self.n := self.n - 1; ifeq self.n code {{ }} self; jump ^.next self;"
    );
    file("shows.framed", start(&code));
    let (status, out, err) = framed("run shows.framed");
    assert_eq!((status, err.as_str()), (0, ""));
    assert_eq!(out, format!("{line}\n").repeat(5000) + "end 0 steps 20001 frames 3 texts 0\n");
}

#[test]
fn looks() {
    let name =
        file("looks.framed", start("self.n := -7; self.t := \"a b\"; self.e := \"\"; self.f := frame: [ ];"));
    let end = "end 0 steps 4 frames 4 texts 0\n";
    let out = format!(
        "{end}self.n integer -7\nself.t text a b\nself.e text \nself.f frame maker 4\n^.Main.start code\n\
         self frame maker 0\n"
    );
    let looks = "--look self.n self.t self.e --fuel 9 --look self.f ^.Main.start self";
    is(framed(&format!("run {name} {looks}")), 0, &out, "");
    let said = "self.x: refused 22: the path leads nowhere: no slot `x` in self\n\
                x: refused 21: not a path: a path is `self` or one `^`, the program, then names: self.faults, ^.table\n";
    let out = format!("{end}self.n integer -7\n");
    is(framed(&format!("run {name} --look self.x self.n x")), 2, &out, said);
    // the run's own status stays
    let (status, out, err) = framed(&format!("run {name} --fuel 1 --look self.t self.n"));
    assert_eq!((status, out.as_str()), (3, "end fuel steps 1 frames 3 texts 0\nself.n integer -7\n"));
    assert!(err.ends_with("\nself.t: refused 22: the path leads nowhere: no slot `t` in self\n"), "{err}");
}

#[test]
fn standard_input() {
    is(framed_input("run -", &start("show 1;")), 0, "1\nend 0 steps 1 frames 3 texts 0\n", "");
    is(framed_input("check -", &start("")), 0, "-: loads\n", "");
    let (status, out, err) = framed_input("check -", "");
    assert_eq!((status, out.as_str()), (2, ""));
    says(&err, &["-:1:1: refused 6: the tokens are not one frame: *"]);
    let mut command = command(&folder(), "run -");
    let output = command.stdin(File::open(folder()).unwrap()).output().unwrap();
    is(answer(output), 4, "", "standard input: Is a directory\n");
}

// ---- where

/// A list that is never let go, with two makers of as many frames, and a code that never runs before them.
const LEAK: &str = "frame: [ never := code { show 1; }, Main := frame: [
  start := code { self.list := 0; jump ^.more self; },
  more := code {
    self.list := frame: [ next := self.list, // one
                          twin := frame: [] ];
    self.a := frame: []; self.list.a := self.a;
    self.b := frame: []; self.list.b := self.b; jump ^.more self; } ] ]";

#[test]
fn where_frames_have_no_room() {
    let name = file("leak.framed", LEAK);
    // 3 at loading, and 4 in each round of 6 steps
    let out = "\
end 36 steps 26 frames 19 texts 0
19 frames reached, made:
  8 by instruction 4 at leak.framed:4:5: self.list := frame: [ next := self.list, twin := frame: [] ];
  4 by instruction 5 at leak.framed:6:5: self.a := frame: [];
  4 by instruction 7 at leak.framed:7:5: self.b := frame: [];
  3 at loading
";
    let said = "\
leak.framed:4:5: end 36: no room for the frames that the instruction makes
  self.list := frame: [ next := self.list, twin := frame: [] ];
  19 frames reached, the instruction makes 2, F is 20
";
    is(framed(&format!("where {name} --frames 20")), 1, out, said);
    is(framed(&format!("where {name} --always --frames 20")), 1, out, said);
    // counts of two lengths stand one below the other
    let (status, out, err) = framed_top("where examples/leak.framed");
    let table = "\
end 36 steps 508 frames 255 texts 0
255 frames reached, made:
  168 by instruction 5 at examples/leak.framed:12:7: self.command := frame: [ name := \"read\", \
header := frame: [ blocks := 8, length := 16 ] ];
   84 by instruction 7 at examples/leak.framed:19:7: self.log := frame: [ command := self.command, before := self.log ];
    3 at loading
";
    assert_eq!((status, out.as_str()), (1, table));
    assert!(err.starts_with("examples/leak.framed:12:7: end 36: "), "{err}");
}

/// Without an end 36 it is a run, and says how to ask.
#[test]
fn where_is_a_run() {
    let hint = |label| format!("{label}: no end 36; --always says what made the frames however the run stops\n");
    for arguments in [
        "examples/drive.framed",
        "examples/call.framed --frames 6 --texts 0",
        "examples/drive.framed --fuel 700 --frames 20 --texts 2",
    ] {
        let (status, out, err) = framed_top(&format!("run {arguments}"));
        let label = arguments.split(' ').next().unwrap();
        is(framed_top(&format!("where {arguments}")), status, &out, &format!("{err}{}", hint(label)));
        let (always_status, always_out, always_err) = framed_top(&format!("where {arguments} --always"));
        assert_eq!((always_status, always_err), (status, err));
        let (count, rows) = always_out.strip_prefix(&out).unwrap().split_once(" frames reached, made:\n").unwrap();
        assert!(out.contains(&format!(" frames {count} texts ")), "{always_out}");
        let counts: Vec<u32> =
            rows.lines().map(|row| row.split_whitespace().next().unwrap().parse().unwrap()).collect();
        assert!(counts.is_sorted_by(|a, b| a >= b) && counts.iter().sum::<u32>().to_string() == count, "{rows}");
    }
    is(
        framed_input("where -", &start("self.a := 1 / 0;")),
        1,
        "end 32 steps 0 frames 3 texts 0\n",
        &format!("{}{}", framed_input("run -", &start("self.a := 1 / 0;")).2, hint("-")),
    );
    // refused as `run` refuses it
    assert_eq!(framed_input("where - --always", "frame"), framed_input("run -", "frame"));
    is(framed_input("where - --fuel 0 --always", &start("show 1;")), 3,
        "end fuel steps 0 frames 3 texts 0\n3 frames reached, made:\n  3 at loading\n",
        "-: fuel: stopped after 0 steps; --fuel N gives more\n");
}

/// One frame, and none.
#[test]
fn where_little_is_reached() {
    let code = "self := frame: []; ^.^ := self;";
    is(
        framed_input("where --always -", &start(code)),
        0,
        "end 0 steps 2 frames 1 texts 0\n1 frame reached, made:\n  1 by instruction 1 at -:1:43: self := frame: [];\n",
        "",
    );
    let code = "^.^ := 1; self := 2;";
    is(framed_input("where - --always", &start(code)), 0, "end 0 steps 2 frames 0 texts 0\n0 frames reached\n", "");
}

/// The number is that of a look, and the place that of the instruction which a trace has there.
#[test]
fn where_agrees_with_look() {
    let code = "self.c := code { self.z := frame: [ in := frame: [] ]; }; self.x := frame: [ ]; jump self.c self;";
    let source = start(code);
    let (_, out, _) = framed_input("run - --look self.x self.z self.z.in", &source);
    assert!(out.ends_with("self.x frame maker 3\nself.z frame maker 2\nself.z.in frame maker 2\n"), "{out}");
    let (status, out, err) = framed_input("where - --always", &source);
    assert_eq!((status, err.as_str()), (0, ""));
    let rows = "  3 at loading\n  2 by instruction 2 at -:1:60: self.z := frame: [ in := frame: [] ];\n  \
                1 by instruction 3 at -:1:101: self.x := frame: [ ];\n";
    assert!(out.ends_with(rows), "{out}");
    let (_, out, _) = framed_input("trace -", &source);
    assert!(out.contains("\n1:60    self.z := ") && out.contains("\n1:101   self.x := "), "{out}");
}

// ---- check

/// One model for each refusal; its place is where the `@` is.
#[test]
fn check_broken() {
    let slots: String = (0..16).map(|i| format!("s{i} := 0, ")).collect();
    let cases = [
        (4, 256, start("show @$;")),
        (5, 256, format!("{}frame: @[ ]", "frame: [ a := ".repeat(16))),
        (6, 256, start("self.a := 1 + @;")),
        (7, 256, "frame: [ a := @self, Main := frame: [ start := code { } ] ]".to_owned()),
        (8, 256, start("self.a := frame: [ x := 1, @x := 2 ];")),
        (8, 256, format!("frame: [ {slots}@Main := frame: [ start := code {{ }} ] ]")),
        (9, 256, start(&format!("{}@show 0;", "show 0; ".repeat(512)))),
        (10, 256, start("self.a := @^.^.^.x;")),
        (11, 256, "frame: [ Main := @frame: [ ] ]".to_owned()),
        (12, 3, format!("frame: [ a := frame: [ ], {}", start("").replace("frame: [ Main := ", "Main := @"))),
    ];
    for (number, frames, marked) in cases {
        let (before, behind) = marked.split_once('@').unwrap();
        let (status, out, err) = framed_input(&format!("check - --frames {frames}"), &format!("{before}{behind}"));
        assert_eq!((status, out.as_str()), (2, ""), "{marked}");
        let first = format!("-:1:{}: refused {number}: ", before.len() + 1);
        assert!(err.starts_with(&first), "{first} of {marked}: {err}");
        let lines: Vec<&str> = err.lines().collect();
        assert_eq!(lines.len(), 3, "{err}");
        let caret = lines[2].find('^').unwrap();
        assert!(behind.starts_with(&lines[1][caret..caret + 1]), "{err}");
    }
}

/// A source that is too long, and a long line, of which a part is printed.
#[test]
fn check_long() {
    let (status, _, err) = framed_input("check -", &"x\n".repeat(9_000));
    assert_eq!(status, 2);
    says(&err, &["-:8193:1: refused 3: the source is longer than 16,384 bytes", "  x", "  ^"]);
    let source = start(&format!("{}show ); {}", "show 1; ".repeat(50), "show 1; ".repeat(50)));
    let column = source.find(')').unwrap() + 1;
    let (_, _, err) = framed_input("check -", &source);
    let lines: Vec<&str> = err.lines().collect();
    assert!(lines[0].starts_with(&format!("-:1:{column}: refused 4: ")), "{err}");
    assert!(lines[1].starts_with("  .. ") && lines[1].ends_with(" ..") && lines[1].len() < 140, "{err}");
    let caret = lines[2].find('^').unwrap();
    assert_eq!(lines[1].as_bytes()[caret], b')', "{err}");
}

/// The caret fits behind tabs and bytes above 127, and control bytes are not printed.
#[test]
fn check_caret() {
    let (_, _, err) = framed_input("check -", "frame: [\r\n\t\"\u{e4}\" ]");
    says(&err, &["-:2:3: refused 4: bytes that form no token: *", "  \t\"\u{e4}\" ]", "  \t ^"]);
    let (_, _, err) = framed_input("check -", "frame: [ /\u{1b}[31m ]\r\n");
    says(&err, &["-:1:11: refused 4: bytes that form no token: *", "  frame: [ /?[31m ]", "            ^"]);
}

#[test]
fn check_goes_on() {
    file("good.framed", start("show 1;"));
    file("bad.framed", "frame: [ }\n");
    let (status, out, err) = framed("check good.framed bad.framed good.framed");
    assert_eq!((status, out.as_str()), (2, "good.framed: loads\ngood.framed: loads\n"));
    says(&err, &["bad.framed:1:10: refused 6: the tokens are not one frame: *", "  frame: [ }", "           ^"]);
    let (status, out, err) = framed("check absent.framed bad.framed . good.framed");
    assert_eq!((status, out.as_str()), (4, "good.framed: loads\n"));
    let lines: Vec<&str> = err.lines().collect();
    assert_eq!(lines[0], "absent.framed: No such file or directory");
    assert_eq!(lines.last(), Some(&".: Is a directory"));
    let (status, out, _) = framed("check good.framed --frames 2 --texts 0");
    assert_eq!((status, out.as_str()), (2, ""));
    is(framed("check good.framed --frames 3 --texts 0"), 0, "good.framed: loads\n", "");
}

/// The number is always the proved library's: the place is of the same one, for each source of the corpus.
#[test]
fn check_corpus() {
    let (data, names) = index("framecorpus");
    let (_, out, err) = answer(command(&data, &format!("check {}", names.join(" "))).output().unwrap());
    let mut refused = err.lines().filter(|line| line.contains(": refused "));
    for name in names {
        match framed::machine::Model::load(&fs::read(data.join(&name)).unwrap(), 256, 256) {
            Ok(_) => assert!(out.contains(&format!("{name}: loads\n"))),
            Err(refusal) => {
                let line = refused.next().unwrap();
                let (place, words) = line.split_once(": ").unwrap();
                assert!(words.starts_with(&format!("{refusal}")), "{line}");
                assert_eq!(place.split(':').count(), 3, "{line}");
            }
        }
    }
}

// ---- trace

#[test]
fn trace_hello() {
    let out = "5:7     show \"Hello World!\";                      -> Hello World!
end 0 steps 1 frames 3 texts 0
";
    is(framed_top("trace examples/hello.framed"), 0, out, "");
}

#[test]
fn trace_call() {
    let out = "\
6:7     self.ref := frame: [ function := ^.^.lambda.start, parent := self, ];  -> frame
10:7    self := frame: [ return := ^.end_pointer, caller := self, arg1 := 21, parent := self.ref.parent, ];  -> frame
16:7    jump self.caller.ref.function self;       -> code at 24:14
25:7    self.x := self.arg1;                      -> 21
26:7    self.intermediate := self.x + self.x;     -> 42
27:7    self.caller.callee_result := self.intermediate;  -> 42
28:7    jump self.return self.caller;             -> code at 18:20
19:7    self.res := self.callee_result;           -> 42
20:7    show self.res;                            -> 42
end 0 steps 9 frames 5 texts 0
";
    is(framed_top("trace examples/call.framed"), 0, out, "");
}

/// Every kind of value and target. A slot is found by the frame that its path led to before the step.
#[test]
fn trace_values() {
    let source = "frame: [ e := 5, Main := frame: [ start := code {
self.a := self;
self.a.a.a := -7;
self.t := \"x\" # self.a;
self.u := \"a  literal\";
self.c := code { show 1; };
^.^.e := frame: [ n := 1 ];
^.^.e.n := ^.start;
ifeq 1 2 3;
self := 5;
^.^ := self;
ifeq 0 code { } 6;
show 9; } ] ]";
    let out = "\
2:1     self.a := self;                           -> frame
3:1     self.a.a.a := -7;                         -> -7
4:1     self.t := \"x\" # self.a;                   -> \"x-7\"
5:1     self.u := \"a  literal\";                   -> \"a  literal\"
6:1     self.c := code { show 1; };               -> code at 6:11
7:1     ^.^.e := frame: [ n := 1 ];               -> frame
8:1     ^.^.e.n := ^.start;                       -> code at 1:44
9:1     ifeq 1 2 3;                               -> goes on
10:1    self := 5;                                -> 5
11:1    ^.^ := self;                              -> 5
12:1    ifeq 0 code { } 6;                        -> jumps to code at 12:8
end 0 steps 11 frames 0 texts 0
";
    is(framed_input("trace -", source), 0, out, "");
}

/// A value that is stored below self is what a look finds there after the step.
#[test]
fn trace_values_are_looked_at() {
    for name in ["branch", "call", "drive", "drive_repaired", "exception"] {
        let path = format!("examples/{name}.framed");
        let source = fs::read(top().join(&path)).unwrap();
        let mut model = framed::machine::Model::load(&source, 256, 256).unwrap();
        let (_, out, _) = framed_top(&format!("trace {path}"));
        for line in out.lines().filter(|line| !line.starts_with("end ")) {
            model.run(1, &mut [0; 65]);
            let (instruction, value) = line.split_once("  -> ").unwrap();
            let Some((target, _)) = instruction[8..].split_once(" := ").filter(|(t, _)| t.starts_with("self"))
            else {
                continue;
            };
            match model.look(target).unwrap() {
                Found::Integer(n) => assert_eq!(value, n.to_string(), "{line}"),
                Found::Text => {
                    assert_eq!(value.as_bytes(), [b"\"", model.look_text(target).as_slice(), b"\""].concat())
                }
                Found::Code => assert!(value.starts_with("code at "), "{line}"),
                Found::Frame(_) => assert_eq!(value, "frame", "{line}"),
            }
        }
    }
}

/// Every model of the corpus has a trace with a line for each step.
#[test]
fn trace_corpus() {
    let (data, names) = index("framecorpus");
    for name in names {
        let at =
            |arguments: &str| answer(command(&data, &format!("{arguments} {name} --fuel 2000")).output().unwrap());
        let (run, trace) = (at("run"), at("trace"));
        assert_eq!((run.0, &run.2), (trace.0, &trace.2), "{name}");
        assert_eq!(run.1.lines().next_back(), trace.1.lines().next_back(), "{name}");
        let steps = trace.1.lines().count().saturating_sub(1);
        assert!(run.0 == 2 || run.1.contains(&format!(" steps {steps} frames ")), "{name}");
        assert!(!trace.1.contains("  -> ?"), "{name}: {}", trace.1);
    }
}

/// A trace has a line for each step, and the last lines of a run.
#[test]
fn trace_is_a_run() {
    for arguments in [
        "examples/drive.framed",
        "examples/drive.framed --fuel 77 --frames 20 --texts 2",
        "examples/branch.framed --fuel 0",
    ] {
        let (status, run, said) = framed_top(&format!("run {arguments}"));
        let (traced, trace, trace_said) = framed_top(&format!("trace {arguments}"));
        assert_eq!((status, &said), (traced, &trace_said));
        let (last, steps) = (run.lines().next_back(), trace.lines().count() - 1);
        assert_eq!(trace.lines().next_back(), last);
        assert!(last.unwrap().contains(&format!(" steps {steps} ")));
        let shows = trace.lines().filter_map(|line| line.split_once("  show ")?.1.split_once("  -> "));
        let shown: Vec<&str> = shows.map(|(_, shown)| shown).collect();
        assert_eq!(shown, run.lines().take(shown.len()).collect::<Vec<_>>());
        assert_eq!(shown.len() + 1, run.lines().count());
    }
}

#[test]
fn trace_ends() {
    let source = start("self.a := 1; self.b := self.a / 0;");
    let (status, out, err) = framed_input("trace -", &source);
    let line = "1:43    self.a := 1;                              -> 1\n";
    assert_eq!((status, out), (1, format!("{line}end 32 steps 1 frames 3 texts 0\n")));
    assert_eq!(err, framed_input("run -", &source).2);
    says(err.lines().next().unwrap(), &["-:1:56: end 32: divisor 0"]);
    let (status, out, err) = framed_input("trace -", "frame");
    assert_eq!((status, out.as_str()), (2, ""));
    assert_eq!(err, framed_input("run -", "frame").2);
}

// ---- write

/// A model with comments, zeros, commas and roundabout paths; its text, and a line end.
#[test]
fn write_tidies() {
    let name = file(
        "untidy.framed",
        "frame:[\n  Main:=frame:[ // the start\n\tstart:=code{self.n:=007;jump ^.^.Main.next self;},\n  \
         next:=code{self.t:=\"n=\"#self.n;show self.t;},],\n]\n",
    );
    let tidy = "frame : [ Main := frame : [ start := code { self.n := 7 ; jump ^.next self ; } , \
                next := code { self.t := \"n=\" # self.n ; show self.t ; } ] ]\n";
    is(framed(&format!("write {name}")), 0, tidy, "");
    is(framed_input("write -", tidy), 0, tidy, "");
    is(framed_input("run -", tidy), 0, "n=7\nend 0 steps 4 frames 3 texts 1\n", "");
}

/// The text of a model runs as the model does, and is its own text.
#[test]
fn write_examples() {
    for name in ["branch", "call", "drive", "drive_repaired", "exception", "hello"] {
        let (status, text, err) = framed_top(&format!("write examples/{name}.framed"));
        assert_eq!((status, text.lines().count(), err.as_str()), (0, 1, ""), "{name}");
        is(framed_input("write -", &text), 0, &text, "");
        let stored = fs::read_to_string(top().join(format!("examples/{name}.out"))).unwrap();
        is(framed_input("run -", &text), 0, &stored, "");
    }
}

/// A model that does not load is told as `check` tells it.
#[test]
fn write_refused() {
    let (data, names) = index("framecorpus");
    let mut refused = 0;
    for name in names {
        let at = |arguments: &str| answer(command(&data, &format!("{arguments} {name}")).output().unwrap());
        let (check, write) = (at("check"), at("write"));
        assert_eq!((write.0, &write.2), (check.0, &check.2), "{name}");
        if check.0 == 2 {
            refused += 1;
            assert_eq!(write.1, "", "{name}");
        } else {
            assert!(write.1.starts_with("frame : [ ") && write.1.ends_with(" ]\n"), "{name}: {}", write.1);
        }
    }
    assert!(refused > 0);
}

/// A text that is longer than a source: printed all the same, and told.
#[test]
fn write_long() {
    let name = file("long_text.framed", start(&"self.a_name_of_16_byt:=self.a_name_of_16_byt;".repeat(360)));
    let (status, out, err) = framed(&format!("write {name}"));
    assert_eq!((status, out.len()), (0, 17_689 + 1));
    assert_eq!(err, format!("{name}: the text has 17689 bytes; with more than 16384 it does not load\n"));
    assert_eq!(framed_input("check -", &out).0, 2);
}

// ---- replay

#[test]
fn replay_statuses() {
    let name = file("replayed.framed", start("self.n := 7; show self.n; self.b := self.c;"));
    let load = format!("load \"{name}\" 3 0");
    let end = format!(
        "{name}:1:69: end 31: no rule applies\n  self.b := self.c;\n  operand `self.c` (1:79): no slot `c` in self\n"
    );
    let nowhere = |column| format!("-:2:{column}: self.x: refused 22: the path leads nowhere: no slot `x` in self\n");
    let unfit = "-:2:15: expected the name of a call\n";
    let cases = [
        (0, "", "", ""),
        (0, "collect", "collect frames 3 texts 0\n", ""),
        (3, "run 1 0", "run fuel steps 1 bytes 0\n", ""),
        (3, "run 9 0", "run output steps 1 bytes 0\n", ""),
        (1, "run 1 0 run 9 9", "run fuel steps 1 bytes 0\n7\nrun 31 steps 1 bytes 2\n", &end),
        (2, "run 9 9 look \"self.x\"", "7\nrun 31 steps 2 bytes 2\nrefused 22\n", &format!("{end}{}", nowhere(9))),
        (4, "look \"self.x\" 5", "refused 22\n? 5\n", &format!("{}{unfit}", nowhere(1))),
        (2, "write 9", "refused 23\n", "-:2:1: write: refused 23: the buffer is shorter than the text: a SPACE of 32767 is enough for every model\n"),
        (4, "write 32769", "? 32769\n", "-:2:7: expected SPACE, an integer from 0 to 32768; the call `write` is not made\n"),
        (4, "run 1 4097", "? 4097\n", "-:2:7: expected SPACE, an integer from 0 to 4096; the call `run` is not made\n"),
        (4, "look self", "? self\n", "-:2:6: expected PATH, a string; the call `look` is not made\n"),
        (4, "load \"a\" 3 run", "? run\n", "-:2:12: expected T, an integer; the call `load` is not made\n"),
        (4, "run 9", "? run 9\n", "-:2:1: a call without all its arguments at the end\n"),
        (4, "= collect", "? no token\n", "-:2:1: bytes that form no token: a lone `=`; `:=` and `==` are tokens; no further call is made\n"),
    ];
    for (status, calls, printed, said) in cases {
        is(framed_input("replay -", &format!("{load}\n{calls}")), status, &format!("loaded\n{printed}"), said);
    }
    is(framed_input("replay -", ""), 0, "", "");
    is(framed_input("replay -", "run 1 1"), 2, "refused 20\n", "-:1:1: run: refused 20: the memories are not whole: nothing is loaded\n");
    let broken = file("broken.framed", "frame: [\n  a 5 ]");
    let said = format!(
        "{broken}:2:5: refused 6: the tokens are not one frame: expected `:=` behind the name `a`, found the integer `5`\n    a 5 ]\n      ^\n"
    );
    is(framed_input("replay -", &format!("load \"{broken}\" 3 0")), 2, "refused 6\n", &said);
    let said = "-:1:1: absent.framed: No such file or directory; no further call is made\n";
    is(framed_input("replay -", "load \"absent.framed\" 3 0 collect"), 4, "? absent.framed\n", said);
    let (long, said) = (" ".repeat(65_537), "-:1:1: the script is too long; no call is made\n");
    is(framed_input("replay -", &long), 4, "? script longer than 65536 bytes\n", said);
}

/// A long run of a script is made in slices, which its print does not show.
#[test]
fn replay_long_run() {
    file("long.framed", "frame: [ Main := frame: [
        start := code { self.n := 700000; show \"first\"; jump ^.loop self; },
        loop := code { self.n := self.n - 1; ifeq self.n ^.last self; jump ^.loop self; },
        last := code { show \"last\"; show \"too long\"; } ] ]");
    let script = "load \"long.framed\" 3 0 run 1500000 99 run -1 10 run 1 8";
    let printed = "loaded\nfirst\nrun fuel steps 1500000 bytes 6\nlast\nrun output steps 600003 bytes 5\nrun output steps 0 bytes 0\n";
    is(framed_input("replay -", script), 3, printed, "");
}

#[test]
fn replay_stored_script() {
    let replay = top().join("crates/replay");
    let stored = fs::read_to_string(replay.join("stdout")).unwrap();
    let (_, out, _) = answer(command(&replay.join("data"), "replay ../stdin").output().unwrap());
    assert_eq!(out, stored);
    is(framed("replay absent.script"), 4, "", "absent.script: No such file or directory\n");
    is(framed("replay ."), 4, "", ".: Is a directory\n");
}

// ---- usage, input and output

#[test]
fn wrong_usage() {
    let usages = [
        ("", "framed: no command is given"),
        ("step", "framed: no command `step`"),
        ("--fuel", "framed: no command `--fuel`"),
        ("run", "framed run: no MODEL is given"),
        ("check --frames 3", "framed check: no MODEL is given"),
        ("replay", "framed replay: no SCRIPT is given"),
        ("run a b", "framed run: one MODEL at a time, without `b`"),
        ("trace a b", "framed trace: one MODEL at a time, without `b`"),
        ("write", "framed write: no MODEL is given"),
        ("write a b", "framed write: one MODEL at a time, without `b`"),
        ("write a --frames 3", "framed write: no option `--frames`"),
        ("run a --speed 3", "framed run: no option `--speed`"),
        ("run -x", "framed run: no option `-x`"),
        ("check a --fuel 3", "framed check: no option `--fuel`"),
        ("trace a --look self", "framed trace: no option `--look`"),
        ("replay a --frames 3", "framed replay: no option `--frames`"),
        ("run a --fuel", "framed run: --fuel takes a number, 0 to 4294967295"),
        ("run a --fuel x", "framed run: --fuel takes a number, 0 to 4294967295, not `x`"),
        ("run a --frames -1", "framed run: --frames takes a number, 3 to 256, not `-1`"),
        ("run a --texts 4294967296", "framed run: --texts takes a number, 0 to 256, not `4294967296`"),
        ("where", "framed where: no MODEL is given"),
        ("where a b", "framed where: one MODEL at a time, without `b`"),
        ("where a --look self", "framed where: no option `--look`"),
        ("where a --always=1", "framed where: --always takes no value"),
        ("run a --always", "framed run: no option `--always`"),
        ("run a --look", "framed run: --look takes paths, as `self.faults`"),
        ("run a --look --fuel 3", "framed run: --look takes paths, as `self.faults`"),
        ("run --look self a", "framed run: no MODEL is given"),
    ];
    for (arguments, said) in usages {
        let (status, out, err) = framed(arguments);
        assert_eq!((status, out.as_str(), err.lines().next()), (4, "", Some(said)), "{arguments}");
        assert!(err.lines().nth(1).unwrap().starts_with("usage: framed "), "{arguments}: {err}");
    }
}

#[test]
fn help() {
    for command in ["run", "where", "check", "trace", "write", "replay"] {
        let (status, out, err) = framed(&format!("{command} --help"));
        assert_eq!((status, err.as_str()), (0, ""));
        for words in [&format!("usage: framed {command} "), "status: ", "examples: "] {
            assert!(out.contains(words), "{command}: {words}");
        }
    }
    let (status, out, err) = framed("--help");
    assert_eq!((status, err.as_str()), (0, ""));
    let usages = [
        "framed run MODEL",
        "framed where MODEL",
        "framed check MODEL",
        "framed trace MODEL",
        "framed write MODEL",
        "framed replay SCRIPT",
    ];
    let options = [
        "\n  --frames F",
        "\n  --texts T",
        "\n  --fuel N",
        "\n  --look PATH",
        "\n  --always",
        "status: ",
        "examples: ",
    ];
    for words in usages.into_iter().chain(options) {
        assert!(out.contains(words), "{words}");
    }
    assert_eq!(framed("run a b --fuel x --help").1, framed("run --help").1);
    assert_eq!((framed("-h").1, framed("help").1), (framed("--help").1, framed("--help").1));
    file("short.framed", start("show 1; self.a := 2;"));
    is(framed("run short.framed --fuel=1 --look=self"), 3, "1\nend fuel steps 1 frames 3 texts 0\nself frame maker 0\n",
        "short.framed: fuel: stopped after 1 step; --fuel N gives more\n");
    is(framed("--version"), 0, concat!("framed ", env!("CARGO_PKG_VERSION"), "\n"), "");
}

#[test]
fn no_file() {
    for command in ["run", "where", "check", "trace", "write", "replay"] {
        let said = "absent: No such file or directory\n";
        is(framed(&format!("{command} absent")), 4, "", said);
        is(framed(&format!("{command} .")), 4, "", ".: Is a directory\n");
    }
}

/// What writes a lot or little, for each command.
fn writers() -> [&'static str; 8] {
    // tests run side by side
    static WRITTEN: Once = Once::new();
    WRITTEN.call_once(|| {
        file("writes.framed", ENDLESS);
        file("writes.script", "load \"writes.framed\" 3 0 collect");
    });
    [
        "run writes.framed",
        "where writes.framed",
        "check writes.framed",
        "trace writes.framed",
        "write writes.framed",
        "replay writes.script",
        "--help",
        "--version",
    ]
}

/// A device that takes nothing: an error in words.
#[test]
#[cfg(target_os = "linux")]
fn full_output() {
    for arguments in writers() {
        let full = fs::OpenOptions::new().write(true).open("/dev/full").unwrap();
        let output = command(&folder(), arguments).stdout(full).output().unwrap();
        is(answer(output), 4, "", "standard output: No space left on device\n");
    }
}

/// A pipe whose reader has gone: no words.
#[test]
fn broken_pipe() {
    for arguments in writers() {
        let (reader, writer) = std::io::pipe().unwrap();
        drop(reader);
        let output = command(&folder(), arguments).stdout(writer).output().unwrap();
        is(answer(output), 4, "", "");
    }
}

/// Without a standard output, Rust's start opens the null device in its place: nobody reads, and nothing goes wrong.
#[test]
#[cfg(unix)]
fn closed_output() {
    for arguments in writers() {
        let line = format!("exec {} {arguments} >&-", env!("CARGO_BIN_EXE_framed"));
        let closed = Command::new("sh").args(["-c", &line]).current_dir(folder()).output().unwrap();
        assert_eq!(closed.status, command(&folder(), arguments).output().unwrap().status, "{arguments}");
        assert!(!String::from_utf8_lossy(&closed.stderr).contains("panic"), "{arguments}");
    }
}

/// No progress is printed where standard error is no terminal; one that takes nothing changes no status.
#[test]
fn standard_error() {
    let name = file("quiet.framed", ENDLESS);
    let fuel = "4000000";
    let (_, _, err) = framed(&format!("run {name} --fuel {fuel}"));
    assert_eq!(err.lines().count(), 1);
    let (reader, writer) = std::io::pipe().unwrap();
    drop(reader);
    let output = command(&folder(), &format!("run {name}")).stderr(writer).output().unwrap();
    assert_eq!(answer(output).0, 3);
}
