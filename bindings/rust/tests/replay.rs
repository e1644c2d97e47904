//! Scripts over the plain implementation and over the proved library print what is stored for the program `replay`.
mod common;

use common::{check_beside, check_index, text, top};
use framed::replay::{replay, Calls, Plain, Replayed};
use framed::{Refusal, Stop};
use std::fs;
use std::path::{Path, PathBuf};

/// What a script prints on cleared memories, and what it came to.
fn replayed(script: &[u8], directory: &Path, calls: &mut impl Calls) -> (Vec<u8>, Replayed) {
    let mut printed = Vec::new();
    let replayed = replay(script, directory, calls, &mut printed).unwrap();
    (printed, replayed)
}

/// The print of a script, which is the same over each implementation.
fn print(script: &[u8], directory: &Path) -> Vec<u8> {
    let (printed, _) = replayed(script, directory, &mut Plain::default());
    #[cfg(feature = "machine")]
    {
        let (proved, _) = replayed(script, directory, &mut framed::replay::Proved::default());
        assert_eq!(text(&proved), text(&printed), "{}", text(script));
    }
    printed
}

/// A folder like crates/replay: the script `stdin` beside the folder `data` prints `stdout`.
#[test]
fn stored_script() {
    let folder = std::env::var_os("FRAMED_REPLAY").map_or_else(|| top().join("crates/replay"), PathBuf::from);
    let printed = print(&fs::read(folder.join("stdin")).unwrap(), &folder.join("data"));
    if std::env::var_os("FRAMED_PRINT").is_some() {
        fs::write(folder.join("stdout"), &printed).unwrap();
    }
    assert_eq!(text(&printed), text(&fs::read(folder.join("stdout")).unwrap()));
}

/// The scripts of the program `replaycorpus`, in the order of its index, print its stored output.
#[test]
fn corpus() {
    check_index("replaycorpus", print);
}

/// Every `NAME.script` of the folder that FRAMED_SCRIPTS names prints `NAME.out`; its files lie beside it.
#[test]
fn further_scripts() {
    if let Some(dir) = std::env::var_os("FRAMED_SCRIPTS").map(PathBuf::from) {
        check_beside(&dir, "script", |script| print(script, &dir));
    }
}

/// A script without files, and what it prints.
fn prints(script: &str, printed: &str) {
    assert_eq!(text(&print(script.as_bytes(), Path::new(""))), printed, "{script}");
}

/// Every token: what does not fit is printed with its own bytes.
#[test]
fn tokens() {
    prints("", "");
    prints(" \t\r\n// a comment without an end", "");
    prints("frame code self show jump ifeq", "? frame\n? code\n? self\n? show\n? jump\n? ifeq\n");
    prints(
        ": := . ^ ! + - * / < # == && || ; , [ ] { }",
        "? :\n? :=\n? .\n? ^\n? !\n? +\n? -\n? *\n? /\n? <\n? #\n? ==\n? &&\n? ||\n? ;\n? ,\n? [\n? ]\n? {\n? }\n",
    );
    prints(":==", "? :=\n? no token\n");
    prints("a_Z9 frames abcdefghijklmnop 5x", "? a_Z9\n? frames\n? abcdefghijklmnop\n? 5\n? x\n");
    prints("collect abcdefghijklmnopq collect", "refused 20\n? no token\n");
    prints(
        "2147483647 -2147483648 --0 00000000000012",
        "? 2147483647\n? -2147483648\n? -\n? -0\n? 00000000000012\n",
    );
    for bytes in [
        "2147483648",
        "-2147483649",
        "99999999999",
        "=",
        "&",
        "|",
        "\"",
        "\"a\nb\"",
        "\"\u{7f}\"",
        "\0",
        "\u{e4}",
        "'",
    ] {
        prints(&format!("collect {bytes} collect"), "refused 20\n? no token\n");
    }
    let (fits, long) = ("x".repeat(64), "x".repeat(65));
    prints(&format!("\"{fits}\""), &format!("? \"{fits}\"\n"));
    prints(&format!("\"{long}\""), "? no token\n");
}

/// The forms of the calls, before a load.
#[test]
fn calls() {
    prints("collect run 1 4096 look\"self\"look\"\"", "refused 20\nrefused 20\nrefused 20\nrefused 20\n");
    prints("run -1 0 run 0 4097 run 0 -1", "refused 20\n? 4097\n? -1\n");
    prints("run run 1 0 run \"\" collect", "? run\n? 1\n? 0\n? \"\"\nrefused 20\n");
    prints("look self look : look 1 \"self\"", "? self\n? :\n? 1\n? \"self\"\n");
    prints("write 0 write 32768 write 32769 write -1", "refused 20\nrefused 20\n? 32769\n? -1\n");
    prints("write \"\" write write 1 collect write", "? \"\"\n? write\n? 1\nrefused 20\n? write\n");
    prints("load \"a\" \"b\" load \"a\" 1 load", "? \"b\"\n? load\n");
    prints("collect load \"a\" // F\n 1\n// T\n", "refused 20\n? load \"a\" // F\n 1\n");
    prints("load \"\" 3 0 collect", "? \n");
}

/// A write prints the text where the buffer has room for it, whatever was run; it has no byte 10.
#[test]
fn writes() {
    let dir = Path::new(env!("CARGO_TARGET_TMPDIR"));
    let source = "frame:[Main:=frame:[start:=code{// one\nself.n:=007;^.start:=5;show ^.^.Main.start;},],]";
    fs::write(dir.join("writes.framed"), source).unwrap();
    let written = "frame : [ Main := frame : [ start := code { self.n := 7 ; ^.start := 5 ; show ^.start ; } ] ]";
    assert_eq!(written.len(), 93);
    let script = b"load \"writes.framed\" 3 0 write 92 write 93 run 9 9 collect write 32768 write 0";
    let printed = format!(
        "loaded\nrefused 23\nwrite bytes 93 {written}\n5\nrun 0 steps 3 bytes 2\ncollect frames 3 texts 0\n\
         write bytes 93 {written}\nrefused 23\n"
    );
    assert_eq!(text(&print(script, dir)), printed);
}

/// A script has at most 65,536 bytes.
#[test]
fn longest_script() {
    let mut script = b"collect".to_vec();
    script.resize(65_536, b' ');
    assert_eq!(text(&print(&script, Path::new(""))), "refused 20\n");
    script.push(b' ');
    assert_eq!(text(&print(&script, Path::new(""))), "? script longer than 65536 bytes\n");
}

/// What a replay came to.
#[test]
fn outcomes() {
    let data = top().join("crates/replaycorpus/data");
    let outcome = |script: &str| replayed(script.as_bytes(), &data, &mut Plain::default()).1;
    let none = outcome("load \"printed.framed\" 3 1 collect");
    assert_eq!((none.unfit, none.refused, none.stop), (false, false, None));
    let done = outcome("load \"printed.framed\" 3 1 run 2 0 run 9 9");
    assert_eq!((done.unfit, done.refused, done.stop), (false, false, Some(Stop::Done)));
    let refused = outcome("load \"printed.framed\" 3 1 run 2 0 look \"self.t\"");
    assert_eq!((refused.unfit, refused.refused, refused.stop), (false, true, Some(Stop::Fuel)));
    let unfit = outcome("step");
    assert_eq!((unfit.unfit, unfit.refused, unfit.unread.is_none()), (true, false, true));
    let unread = outcome("load \"absent.framed\" 3 1 collect");
    let (name, error) = unread.unread.unwrap();
    assert_eq!((unread.unfit, unread.refused, name.as_str()), (true, false, "absent.framed"));
    assert_eq!(error.kind(), std::io::ErrorKind::NotFound);
}

/// A file is read as far as a source may go, and one byte more.
#[test]
fn long_file() {
    struct Lengths(Vec<usize>);
    impl Calls for Lengths {
        fn load(&mut self, _: &str, source: &[u8], frames: u32, texts: u32) -> Result<(), Refusal> {
            assert_eq!((frames, texts), (u32::MAX, 0));
            self.0.push(source.len());
            Err(Refusal(3))
        }
        fn run(&mut self, _: u32, _: &mut [u8]) -> Result<framed::RunReport, Refusal> {
            unreachable!()
        }
        fn collect(&mut self) -> Result<framed::Totals, Refusal> {
            unreachable!()
        }
        fn look(&self, _: &[u8]) -> Result<framed::Found, Refusal> {
            unreachable!()
        }
        fn look_text(&self, _: &[u8]) -> Vec<u8> {
            unreachable!()
        }
        fn write(&self, _: &mut [u8]) -> Result<usize, Refusal> {
            unreachable!()
        }
    }
    let dir = Path::new(env!("CARGO_TARGET_TMPDIR"));
    fs::write(dir.join("long.framed"), vec![b' '; 40_000]).unwrap();
    fs::write(dir.join("exact.framed"), vec![b' '; 16_384]).unwrap();
    let mut lengths = Lengths(Vec::new());
    let script = b"load \"long.framed\" -1 0 load \"exact.framed\" -1 0";
    let (printed, _) = replayed(script, dir, &mut lengths);
    assert_eq!((text(&printed).as_str(), lengths.0), ("refused 3\nrefused 3\n", vec![16_385, 16_384]));
}
