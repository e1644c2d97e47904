//! The C header and the C examples: the words and sizes of `include/framed.h` are those of this crate and of README, and
//! with the static library the examples print what they should.
use framed::{End, Refusal};
use std::fs;
use std::path::{Path, PathBuf};
use std::process::{Command, Output};

fn top() -> PathBuf {
    Path::new(env!("CARGO_MANIFEST_DIR")).join("../..")
}

fn header() -> String {
    fs::read_to_string(top().join("include/framed.h")).unwrap()
}

/// What a number of a refusal or an end says here.
fn words(number: u32) -> Option<&'static str> {
    match number {
        1..=12 | 20..=23 => Some(Refusal(number).message()),
        _ => End::from_number(number).map(End::message),
    }
}

/// The numbers from 1 on that say something, with what they say.
fn all_words() -> Vec<(u32, String)> {
    (1..100).filter_map(|number| words(number).map(|words| (number, words.to_string()))).collect()
}

/// What `framed_message` in C is to say.
fn message(number: u32) -> &'static str {
    match number {
        0 => "no refusal and no end",
        _ => words(number).unwrap_or("no such number"),
    }
}

/// What `framed_stop_message` in C is to say.
fn stop_message(stop: u32) -> &'static str {
    match stop {
        0 => "done",
        1 => "fuel",
        2 => "output",
        _ => message(stop),
    }
}

/// What stands between two texts, of which the first is there once.
fn between<'a>(text: &'a str, from: &str, to: &str) -> &'a str {
    let mut parts = text.split(from);
    let (_, part) = (parts.next(), parts.next().unwrap_or_else(|| panic!("no {from:?}")));
    assert!(parts.next().is_none(), "{from:?} twice");
    part.split(to).next().unwrap()
}

#[test]
fn the_header_has_the_words() {
    let header = header();
    let body = between(&header, "framed_message(uint32_t number) {", "\n}");
    let cases: Vec<_> = body
        .lines()
        .filter_map(|line| line.trim().strip_prefix("case "))
        .map(|case| {
            let (number, words) = case.split_once(": return \"").unwrap();
            (number.parse().unwrap(), words.strip_suffix("\";").unwrap().to_string())
        })
        .filter(|(number, _)| *number != 0)
        .collect();
    assert_eq!(cases, all_words());
}

/// The table has two numbers in a row; some words have the names of the calls before them, as `look: not a path`.
#[test]
fn readme_has_the_words() {
    let readme = fs::read_to_string(top().join("README.md")).unwrap();
    let mut rows = Vec::new();
    for line in between(&readme, "\n## The numbers\n", "\n## ").lines().filter(|line| line.starts_with('|')) {
        let cells: Vec<_> = line.split('|').map(str::trim).collect();
        for pair in cells.windows(2) {
            if let Ok(number) = pair[0].parse::<u32>() {
                let words = pair[1].split_once(": ").map_or(pair[1], |(_, words)| words);
                rows.push((number, words.to_string()));
            }
        }
    }
    rows.sort();
    assert_eq!(rows, all_words());
}

/// The value of a `#define`, without a comment.
fn define(header: &str, name: &str) -> String {
    let line = between(header, &format!("\n#define {name} "), "\n");
    line.split("/*").next().unwrap().trim().to_string()
}

#[test]
fn the_header_has_version_and_sizes() {
    let header = header();
    let version = env!("CARGO_PKG_VERSION");
    let parts = ["MAJOR", "MINOR", "PATCH"].map(|part| define(&header, &format!("FRAMED_VERSION_{part}")));
    assert_eq!(parts.join("."), version);
    assert_eq!(define(&header, "FRAMED_VERSION"), format!("{version:?}"));
    for (name, size) in [
        ("FRAMED_PROGRAM_WORDS", framed::PROGRAM_WORDS),
        ("FRAMED_HEAP_WORDS", framed::HEAP_WORDS),
        ("FRAMED_LITERAL_BYTES", framed::LITERAL_BYTES),
        ("FRAMED_TEXT_BYTES", framed::TEXT_BYTES),
        ("FRAMED_SOURCE_BYTES", framed::SOURCE_BYTES),
        ("FRAMED_TEXT_BUFFER", framed::TEXT_BUFFER),
        ("FRAMED_MAKERS", framed::MAKERS),
    ] {
        assert_eq!(define(&header, name), size.to_string(), "{name}");
    }
}

const C: [&str; 1] = ["-std=c99"];
const CXX: [&str; 3] = ["-std=c++11", "-x", "c++"];

/// A folder for what is compiled.
fn folder() -> PathBuf {
    PathBuf::from(env!("CARGO_TARGET_TMPDIR"))
}

/// Compiles a file with every warning an error. False, with a word about it, where there is no such compiler.
fn compiles(compiler: &str, language: &[&str], file: &Path, program: &Path, library: Option<&Path>) -> bool {
    let mut command = Command::new(compiler);
    command.args(["-O2", "-Wall", "-Wextra", "-Wpedantic", "-Werror"]).args(language);
    command.arg("-I").arg(top().join("include")).arg(file);
    // the language of the archive is its own
    command.args(["-x", "none"]).args(library).arg("-o").arg(program);
    match command.output() {
        Ok(output) => {
            assert!(output.status.success(), "{}: {}", file.display(), text(&output.stderr));
            true
        }
        Err(error) => {
            eprintln!("{compiler}: {error}; nothing compiled");
            false
        }
    }
}

fn text(bytes: &[u8]) -> String {
    String::from_utf8_lossy(bytes).into_owned()
}

fn run(program: &Path, arguments: &[&str]) -> Output {
    Command::new(program).args(arguments).current_dir(top()).output().unwrap()
}

/// The compiled header says the words of every number. It needs no library: no call is made.
#[test]
fn c_and_cxx_say_the_words() {
    let file = folder().join("words.c");
    let source = r#"
        #include "framed.h"
        #include "framed.h"
        #include <stdio.h>
        int main(void) {
            printf("%lu bytes\n", (unsigned long)sizeof(struct framed_memories));
            for (uint32_t n = 0; n < 50; n++)
                printf("%s, %s\n", framed_message(n), framed_stop_message(n));
            return 0;
        }
    "#;
    fs::write(&file, source).unwrap();
    let size = 4 * (framed::PROGRAM_WORDS + framed::HEAP_WORDS) + framed::LITERAL_BYTES + framed::TEXT_BYTES;
    let mut expected = format!("{size} bytes\n");
    for number in 0..50 {
        expected += &format!("{}, {}\n", message(number), stop_message(number));
    }
    for (compiler, language) in [("cc", &C[..]), ("c++", &CXX[..])] {
        let program = folder().join(format!("words-{compiler}"));
        if compiles(compiler, language, &file, &program, None) {
            assert_eq!(text(&run(&program, &[]).stdout), expected, "{compiler}");
        }
    }
}

#[cfg(feature = "machine")]
mod examples {
    use super::*;

    fn library() -> PathBuf {
        let folder = std::env::var_os("FRAMED_LIB_DIR").map(PathBuf::from);
        folder.unwrap_or_else(|| top().join("target/staticlib")).join("libframed_c.a")
    }

    /// A C example, compiled as C and as C++ by the compilers that are there.
    fn programs(name: &str) -> Vec<PathBuf> {
        compiled(name, &top().join("examples").join(format!("{name}.c")))
    }

    fn compiled(name: &str, file: &Path) -> Vec<PathBuf> {
        let mut programs = Vec::new();
        for (compiler, language) in [("cc", &C[..]), ("c++", &CXX[..])] {
            let program = folder().join(format!("{name}-{compiler}"));
            if compiles(compiler, language, file, &program, Some(&library())) {
                programs.push(program);
            }
        }
        programs
    }

    /// A source in a file of its own, by its full name.
    fn stored(name: &str, source: &str) -> String {
        let file = folder().join(name);
        fs::write(&file, source).unwrap();
        file.to_str().unwrap().to_string()
    }

    /// Status, standard output and standard error.
    #[track_caller]
    fn expect(program: &Path, arguments: &[&str], status: i32, out: &str, err: &str) {
        let output = run(program, arguments);
        assert_eq!(text(&output.stdout), out, "{} {arguments:?}", program.display());
        assert_eq!(text(&output.stderr), err, "{} {arguments:?}", program.display());
        assert_eq!(output.status.code(), Some(status), "{} {arguments:?}", program.display());
    }

    /// What each example prints through `embed`, with some paths.
    const EMBED: [(&str, &[&str], &str); 6] = [
        (
            "branch",
            &["self.value"],
            "0\nzero\n1\nnot zero\nslice 1: 10 steps, 3 frames and 0 texts reached\ndone after 10 steps\n\
             self.value is 1\n",
        ),
        (
            "call",
            &["self.res"],
            "42\nslice 1: 9 steps, 5 frames and 0 texts reached\ndone after 9 steps\nself.res is 42\n",
        ),
        (
            "drive",
            &["self.faults", "self.line", "^.Main.start", "self", "self.command", "self.nowhere", "a b"],
            "read length 16\nwrite length 16\ntrim length 24\n\
             slice 1: 500 steps, 16 frames and 0 texts reached\n\
             slice 2: 500 steps, 16 frames and 0 texts reached\n\
             slice 3: 500 steps, 16 frames and 0 texts reached\n\
             slice 4: 500 steps, 16 frames and 0 texts reached\n\
             asked 1600\nerased 1800\na trim of 8 blocks erases 9\nfaults 1\nFAIL\n\
             slice 5: 47 steps, 14 frames and 1 texts reached\n\
             done after 2047 steps\n\
             self.faults is 1\nself.line is \"faults 1\"\n^.Main.start is a code\nself is a frame made at loading\n\
             self.command is a frame made by instruction 8\n\
             self.nowhere: refused 22: the path leads nowhere\na b: refused 21: not a path\n",
        ),
        (
            "drive_repaired",
            &["self.faults"],
            "read length 16\nwrite length 16\ntrim length 24\n\
             slice 1: 500 steps, 16 frames and 0 texts reached\n\
             slice 2: 500 steps, 16 frames and 0 texts reached\n\
             slice 3: 500 steps, 16 frames and 0 texts reached\n\
             slice 4: 500 steps, 16 frames and 0 texts reached\n\
             asked 1600\nerased 1600\nPASS\n\
             slice 5: 42 steps, 14 frames and 1 texts reached\n\
             done after 2042 steps\nself.faults is 0\n",
        ),
        (
            "exception",
            &["self.res"],
            "42\nuncaught exception: 43\nslice 1: 14 steps, 5 frames and 1 texts reached\ndone after 14 steps\n\
             self.res is \"uncaught exception: 43\"\n",
        ),
        ("hello", &[], "Hello World!\nslice 1: 1 steps, 3 frames and 0 texts reached\ndone after 1 steps\n"),
    ];

    #[test]
    fn embed() {
        let divides = stored(
            "divides.framed",
            "frame: [ Main := frame: [ start := code { show 1; self.n := 1 / 0; } ] ]",
        );
        let endless = stored(
            "endless.framed",
            "frame: [ Main := frame: [ start := code { self.n := 0; jump ^.start self; } ] ]",
        );
        let no_frame = stored("no_frame.framed", "code {}");
        let too_long = stored("too_long.framed", &" ".repeat(17_000));
        for program in programs("embed") {
            for (name, paths, out) in EMBED {
                let source = format!("examples/{name}.framed");
                expect(&program, &[&[source.as_str()], paths].concat(), 0, out, "");
            }
            expect(
                &program,
                &[&divides, "self.n"],
                3,
                "1\nslice 1: 1 steps, 3 frames and 0 texts reached\nend 32 after 1 steps: divisor 0\n\
                 self.n: refused 22: the path leads nowhere\n",
                "",
            );
            // F is 40
            expect(
                &program,
                &["examples/leak.framed", "self.log"],
                3,
                "slice 1: 76 steps, 39 frames and 0 texts reached\n\
                 end 36 after 76 steps: no room for the frames that the instruction makes\n\
                 frames made by instruction 5: 24\nframes made by instruction 7: 12\nframes made at loading: 3\n\
                 self.log is a frame made by instruction 7\n",
                "",
            );
            let output = run(&program, &[&endless]);
            assert_eq!(output.status.code(), Some(3));
            assert!(text(&output.stdout).ends_with("fuel after 500000 steps\n"));
            expect(&program, &[&no_frame], 1, "", &format!("{no_frame}: refused 6: the tokens are not one frame\n"));
            expect(
                &program,
                &[&too_long],
                1,
                "",
                &format!("{too_long}: refused 3: the source is longer than 16,384 bytes\n"),
            );
            expect(&program, &[], 2, "", "usage: embed MODEL [PATH..]\n");
            let output = run(&program, &["examples/absent.framed"]);
            assert_eq!((output.status.code(), output.stdout.len()), (Some(1), 0));
        }
    }

    #[test]
    fn tidy() {
        let code = "self.a_name_of_16_byt:=self.a_name_of_16_byt;".repeat(360);
        let long = stored("long_text.framed", &format!("frame:[Main:=frame:[start:=code{{{code}}}]]"));
        let no_frame = stored("no_tidy_frame.framed", "code {}");
        for program in programs("tidy") {
            for (name, steps) in [("hello", 1), ("call", 9), ("drive", 500)] {
                let file = format!("examples/{name}.framed");
                let source = fs::read(top().join(&file)).unwrap();
                let model = framed::machine::Model::load(&source, 256, 256).unwrap();
                let written = text(&model.text().unwrap()) + "\n";
                let said = format!("written after {steps} steps; loaded again, the text is the same model\n");
                expect(&program, &[&file], 0, &written, &said);
            }
            let output = run(&program, &[&long]);
            assert_eq!((output.status.code(), output.stdout.len()), (Some(3), 17_689 + 1));
            let said = "the text, 17689 bytes: refused 3: the source is longer than 16,384 bytes\n";
            assert_eq!(text(&output.stderr), said);
            let said = format!("{no_frame}: refused 6: the tokens are not one frame\n");
            expect(&program, &[&no_frame], 1, "", &said);
            expect(&program, &[], 2, "", "usage: tidy MODEL\n");
        }
    }

    /// A refused write changes nothing, the length included; what lies behind a text stays.
    #[test]
    fn write() {
        let file = folder().join("write.c");
        let source = r#"
            #include "framed.h"
            #include <stdio.h>
            static struct framed_memories m;
            static char out[60];
            static void try_write(size_t space) {
                size_t length = 7;
                for (size_t i = 0; i < sizeof out; i++)
                    out[i] = '~';
                uint32_t answer = framed_memories_write(&m, out, space, &length);
                printf("%u %lu %.60s\n", (unsigned)answer, (unsigned long)length, out);
            }
            int main(void) {
                static const char source[] = "frame: [ Main := frame: [ start := code { show 1; } ] ]";
                try_write(60);
                if (framed_memories_load(&m, source, sizeof source - 1, 3, 0))
                    return 1;
                try_write(0);
                try_write(57);
                try_write(58);
                m.heap[5] = 38;
                try_write(60);
                return 0;
            }
        "#;
        fs::write(&file, source).unwrap();
        let stays = "~".repeat(60);
        let text = "frame : [ Main := frame : [ start := code { show 1 ; } ] ]";
        let printed = format!("20 7 {stays}\n23 7 {stays}\n23 7 {stays}\n0 58 {text}~~\n20 7 {stays}\n");
        for program in compiled("write", &file) {
            expect(&program, &[], 0, &printed, "");
        }
    }

    /// A look writes the number of an integer and the maker of a frame alone. Refused makers change no count.
    #[test]
    fn looks_and_makers() {
        let file = folder().join("makers.c");
        let source = r#"
            #include "framed.h"
            #include <stdio.h>
            static struct framed_memories m;
            static uint32_t counts[FRAMED_MAKERS + 1];
            static void try_look(const char *path) {
                int32_t number = -7;
                uint32_t maker = 7;
                uint32_t answer = framed_memories_look(&m, path, &number, &maker);
                printf("%u %d %u\n", (unsigned)answer, (int)number, (unsigned)maker);
            }
            static void try_makers(void) {
                unsigned others = 0;
                for (size_t i = 0; i <= FRAMED_MAKERS; i++)
                    counts[i] = 9;
                uint32_t answer = framed_memories_makers(&m, counts);
                for (size_t i = 4; i < FRAMED_MAKERS; i++)
                    others += (unsigned)counts[i];
                printf("%u: %u %u %u %u, %u and %u\n", (unsigned)answer, (unsigned)counts[0], (unsigned)counts[1],
                       (unsigned)counts[2], (unsigned)counts[3], others, (unsigned)counts[FRAMED_MAKERS]);
            }
            int main(void) {
                static const char source[] = "frame: [ Main := frame: [ start := code { self.n := 5; "
                                             "self.a := frame: [ b := frame: [] ]; self.t := \"\"; } ] ]";
                uint32_t steps;
                size_t bytes;
                char out[1];
                try_look("self");
                try_makers();
                if (framed_memories_load(&m, source, sizeof source - 1, 6, 0))
                    return 1;
                try_makers();
                framed_memories_run(&m, 9, out, sizeof out, &steps, &bytes);
                try_look("self.n");
                try_look("self.t");
                try_look("^.Main.start");
                try_look("self");
                try_look("self.a.b");
                try_look("self.x");
                try_look("n");
                try_makers();
                m.heap[130] = 4;
                try_look("self");
                try_makers();
                return 0;
            }
        "#;
        fs::write(&file, source).unwrap();
        let stays = format!("20: 9 9 9 9, {} and 9\n", 9 * (framed::MAKERS - 4));
        let printed = format!(
            "20 -7 7\n{stays}0: 3 0 0 0, 0 and 9\n\
             1 5 7\n2 -7 7\n3 -7 7\n4 -7 0\n4 -7 2\n22 -7 7\n21 -7 7\n0: 3 0 2 0, 0 and 9\n\
             20 -7 7\n{stays}"
        );
        for program in compiled("makers", &file) {
            expect(&program, &[], 0, &printed, "");
        }
    }

    /// The last line of `many` about a model.
    fn tried(model: &str, steps: &str) -> String {
        format!("{model}: the last {steps} steps again, 7 at a time, and one by one with collects: the same verdict\n")
    }

    #[test]
    fn many() {
        // makes frames until one has no room
        let full = stored(
            "full.framed",
            "frame: [ Main := frame: [ start := code { self.list := 0; jump ^.more self; }, \
             more := code { self.list := frame: [ next := self.list ]; show \"one\"; jump ^.more self; } ] ]",
        );
        for program in programs("many") {
            expect(
                &program,
                &["examples/drive.framed", "examples/hello.framed", "examples/drive_repaired.framed"],
                0,
                &("turn 1 of examples/drive.framed: 500 steps, fuel\nread length 16\nwrite length 16\ntrim length 24\n\
                 turn 1 of examples/hello.framed: 1 steps, done\nHello World!\n\
                 turn 1 of examples/drive_repaired.framed: 500 steps, fuel\n\
                 read length 16\nwrite length 16\ntrim length 24\n\
                 turn 2 of examples/drive.framed: 500 steps, fuel\n\
                 turn 2 of examples/drive_repaired.framed: 500 steps, fuel\n\
                 turn 3 of examples/drive.framed: 500 steps, fuel\n\
                 turn 3 of examples/drive_repaired.framed: 500 steps, fuel\n\
                 turn 4 of examples/drive.framed: 500 steps, fuel\n\
                 turn 4 of examples/drive_repaired.framed: 500 steps, fuel\n\
                 turn 5 of examples/drive.framed: 47 steps, done\n\
                 asked 1600\nerased 1800\na trim of 8 blocks erases 9\nfaults 1\nFAIL\n\
                 turn 5 of examples/drive_repaired.framed: 42 steps, done\n\
                 asked 1600\nerased 1600\nPASS\n\
                 examples/drive.framed: done after 2047 steps\n"
                    .to_string()
                    + &tried("examples/drive.framed", "47")
                    + "examples/hello.framed: done after 1 steps\n"
                    + &tried("examples/hello.framed", "1")
                    + "examples/drive_repaired.framed: done after 2042 steps\n"
                    + &tried("examples/drive_repaired.framed", "42")),
                "",
            );
            // each of the others by itself: what it shows, and done in the end
            for name in ["branch", "call", "exception"] {
                let source = format!("examples/{name}.framed");
                let stored = fs::read_to_string(top().join("examples").join(format!("{name}.out"))).unwrap();
                let (shown, last) = stored.trim_end().rsplit_once('\n').unwrap();
                let steps = between(last, "steps ", " ");
                expect(
                    &program,
                    &[&source],
                    0,
                    &format!(
                        "turn 1 of {source}: {steps} steps, done\n{shown}\n\
                         {source}: done after {steps} steps\n{}",
                        tried(&source, steps)
                    ),
                    "",
                );
            }
            // F is 40: three frames are there, and 37 more are made before one has no room
            expect(
                &program,
                &[&full],
                3,
                &format!(
                    "turn 1 of {full}: 113 steps, no room for the frames that the instruction makes\n{}\
                     {full}: end 36 after 113 steps: no room for the frames that the instruction makes\n{}",
                    "one\n".repeat(37),
                    tried(&full, "113")
                ),
                "",
            );
            expect(&program, &[], 2, "", "usage: many MODEL.. (at most 8)\n");
            expect(&program, &["x"; 9], 2, "", "usage: many MODEL.. (at most 8)\n");
            let output = run(&program, &["examples/hello.framed", "examples/absent.framed"]);
            assert_eq!((output.status.code(), output.stdout.len()), (Some(1), 0));
        }
    }
}
