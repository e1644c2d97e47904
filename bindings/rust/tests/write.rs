//! Write, over the plain implementation and over the machine, which must give the same answer and the same bytes: the text of
//! memories that load made loads again as the same memories; whole memories that no source has give an answer too, at once.
mod common;

use common::{deep, long_source, rounds, stored_sources, text, within, Built, Random, Writer};
use framed::{plain, Memories, Refusal, SOURCE_BYTES, TEXT_BUFFER};
use std::time::Duration;

fn load(source: &[u8], frames: u32, texts: u32) -> Result<Memories, Refusal> {
    let mut m = Memories::new();
    plain::load(source, frames, texts, &mut m.program, &mut m.heap, &mut m.literals, &mut m.texts)?;
    Ok(m)
}

fn write(m: &Memories, out: &mut [u8]) -> Result<usize, Refusal> {
    #[cfg(feature = "machine")]
    let mut proved_out = out.to_vec();
    let written = plain::write(&m.program, &m.heap, &m.literals, &m.texts, out);
    #[cfg(feature = "machine")]
    {
        let proved = framed::machine::write(&m.program, &m.heap, &m.literals, &m.texts, &mut proved_out);
        assert_eq!(proved, written);
        assert!(proved_out == out);
    }
    written
}

/// The text, in a buffer of this length. What lies behind it stays.
fn written(m: &Memories, space: usize) -> Result<Vec<u8>, Refusal> {
    let mut out = vec![0xa5; space];
    let written = write(m, &mut out);
    let length = written.unwrap_or_default();
    assert!(out.split_off(length).iter().all(|&byte| byte == 0xa5), "bytes behind the text are written");
    written.map(|_| out)
}

/// The text, for which the usual buffer does. One of its length does too, and one that is a byte shorter does not.
fn text_of(m: &Memories) -> Vec<u8> {
    let bytes = written(m, TEXT_BUFFER).unwrap();
    assert_eq!(written(m, bytes.len()).as_ref(), Ok(&bytes));
    assert_eq!(written(m, bytes.len() - 1), Err(Refusal(23)));
    bytes
}

/// Some runs and collects.
fn go_on(m: &mut Memories, random: &mut Random) {
    for _ in 0..random.below(4) {
        let mut out = vec![0; random.pick(&[0, 20, 1_000])];
        let fuel = random.pick(&[0, 1, 7, 60, 500]);
        plain::run(&m.program, &mut m.heap, &m.literals, &mut m.texts, fuel, &mut out).unwrap();
        if random.one_in(2) {
            plain::collect(&m.program, &mut m.heap, &m.literals, &m.texts).unwrap();
        }
    }
}

/// The text, which loads again, where the source loads.
fn round_trip(source: &[u8], random: &mut Random) -> Option<Vec<u8>> {
    let (frames, texts) = (random.pick(&[256, 256, 40, 12]), random.pick(&[256, 3, 0]));
    let first = load(source, frames, texts).ok()?;
    let mut m = first.clone();
    go_on(&mut m, random);
    let bytes = text_of(&m);
    let (length, source) = (source.len(), text(source));
    assert!(bytes.len() < 2 * length, "{source}");
    if bytes.len() > SOURCE_BYTES {
        assert_eq!(load(&bytes, frames, texts).err(), Some(Refusal(3)));
        return Some(bytes);
    }
    let mut again = load(&bytes, frames, texts).unwrap_or_else(|refusal| panic!("{refusal}: {source}"));
    assert!(again == first, "other memories: {source}");
    go_on(&mut again, random);
    assert!(text_of(&again) == bytes, "another text: {source}");
    Some(bytes)
}

#[test]
fn stored() {
    let random = &mut Random(21);
    let written = stored_sources().iter().filter(|source| round_trip(source, random).is_some()).count();
    println!("{written} texts");
    assert!(written > 150);
}

#[test]
fn generated() {
    let random = &mut Random(22);
    let total = rounds(400);
    let written = (0..total).filter(|_| round_trip(Writer::source(random).as_bytes(), random).is_some()).count();
    println!("{written} of {total} texts");
    assert!(2 * written as u64 > total);
    // these have too many instructions or not
    (0..total / 8).for_each(|_| drop(round_trip(long_source(random).as_bytes(), random)));
}

/// A text may be longer than any source, and is written all the same. It is then no source.
#[test]
fn longest() {
    let of = |instruction: &str, count: usize| {
        let source = format!("frame:[Main:=frame:[start:=code{{{}}}]]", instruction.repeat(count));
        let bytes = round_trip(source.as_bytes(), &mut Random(23)).unwrap();
        println!("{} bytes, a source of {}", bytes.len(), source.len());
        bytes.len()
    };
    assert!(of("self.a_name_of_16_byt:=self.a_name_of_16_byt;", 360) > SOURCE_BYTES);
    // as many spaces as can be for each byte
    of("^:=0;", 512);
    of("^:=0+0;", 330);
}

/// Other spaces, comments, zeros, last commas and longer ways to the same slot give the same text.
#[test]
fn one_text_for_a_program() {
    let random = &mut Random(24);
    for _ in 0..rounds(100) {
        let source = Writer::source(random);
        let Some(bytes) = round_trip(source.as_bytes(), random) else { continue };
        let (mut other, mut in_string, mut last) = (String::new(), false, ' ');
        for c in source.chars() {
            in_string ^= c == '"';
            match c {
                ' ' if !in_string => other.push_str(random.pick(&[" ", "  ", "\n", "\t\r", " // \"a\n", "\n\n"])),
                ']' if !in_string && !"[,".contains(last) => other.push_str(random.pick(&["]", ",]"])),
                c => other.push(c),
            }
            if c != ' ' {
                last = c;
            }
        }
        for (short, long) in [(":= 7", ":= 007"), ("^.one", "^.^.Main.one"), ("^.two", "^.^.Main.two")] {
            other = other.replace(short, long);
        }
        let other_bytes = text_of(&load(other.as_bytes(), 256, 256).unwrap());
        assert_eq!(text(&other_bytes), text(&bytes), "{other}");
    }
}

fn writes(source: &str, expected: &str) {
    assert_eq!(text(&text_of(&load(source.as_bytes(), 256, 256).unwrap())), expected);
}

#[test]
fn forms() {
    writes(
        "frame:[i:=-007,z:=-0,m:=-2147483648,s:=\" a // b\",e:=\"\",f:=frame:[],c:=code{},Main:=frame:[start:=code{},],]",
        "frame : [ i := -7 , z := 0 , m := -2147483648 , s := \" a // b\" , e := \"\" , f := frame : [ ] , c := code { } \
         , Main := frame : [ start := code { } ] ]",
    );
    writes(
        "frame: [ Main := frame: [ start := code { self:=!self.a.b; self.v:=5--3; show\"x\"; jump code{show 1;}self;
         ifeq 0\"\"code{}; self.f:=frame:[a:=frame:[b:=self,],c:=\"x\"#1,]; } ] ]",
        "frame : [ Main := frame : [ start := code { self := ! self.a.b ; self.v := 5 - -3 ; show \"x\" ; \
         jump code { show 1 ; } self ; ifeq 0 \"\" code { } ; \
         self.f := frame : [ a := frame : [ b := self ] , c := \"x\" # 1 ] ; } ] ]",
    );
    let operators = ["+", "-", "*", "/", "<", "#", "==", "&&", "||"];
    let source = |space: &str| -> String {
        let code: String =
            operators.iter().map(|sign| format!("self.a := self{space}{sign}{space}self ; ")).collect();
        format!("frame : [ Main := frame : [ start := code {{ {code}}} ] ]")
    };
    writes(&source(""), &source(" "));
}

/// A path climbs to the deepest frame that its list shares with the holding frame, which the first `^` is.
#[test]
fn paths() {
    let source = |held: &str, outer: &str| {
        format!(
            "frame : [ a := frame : [ b := frame : [ c := frame : [ d := code {{ {held}}} ] ] , x := 0 ] , aa := 0 , \
             Main := frame : [ start := code {{ {outer}}} ] , top := code {{ show ^.a ; show ^ ; }} ]"
        )
    };
    // in code that a.b.c holds, and in Main.start: as it may be written, and as it is
    let held = [
        ("^.^.^.^.a.b.c.d", "^.d"),
        ("^.^.c", "^"),
        ("^.^.d", "^.^.d"),
        ("^.^.^.b", "^.^"),
        ("^.^.^.^.a", "^.^.^"),
        ("^.^.^.^", "^.^.^.^"),
        ("^.^.^.b.c.d.e.f", "^.d.e.f"),
        ("^.^.^.^.a.x.c", "^.^.^.x.c"),
        ("^.^.^.^.aa.b.c", "^.^.^.^.aa.b.c"),
        ("^.^.^.^.b.c", "^.^.^.^.b.c"),
        ("self.a.b.c", "self.a.b.c"),
    ];
    let outer = [("^.^.Main.x", "^.x"), ("^.^.Main", "^"), ("^.^", "^.^"), ("^.^.a.b", "^.^.a.b")];
    // on the right, on the left, in code in code and in frames in code
    let code = |path: &str| {
        format!(
            "show {path} ; {path} := 0 ; jump code {{ show {path} ; }} 0 ; \
             self.n := frame : [ a := frame : [ b := {path} , c := code {{ show {path} ; }} ] ] ; "
        )
    };
    for (long, short) in held {
        writes(&source(&code(long), ""), &source(&code(short), ""));
    }
    for (long, short) in outer {
        writes(&source("", &code(long)), &source("", &code(short)));
    }
}

// ---- Memories that are not whole, and whole ones that no source has

#[test]
fn not_whole() {
    for space in [0, 11, TEXT_BUFFER] {
        assert_eq!(written(&Memories::new(), space), Err(Refusal(20)));
    }
    let mut m = load(b"frame: [ Main := frame: [ start := code {} ] ]", 3, 0).unwrap();
    m.heap[5] = 38;
    assert_eq!(written(&m, 0), Err(Refusal(20)));
    assert_eq!(written(&m, TEXT_BUFFER), Err(Refusal(20)));
}

/// Each instruction names one code literal two or three times, so that the text has more than 2^60 bytes.
#[test]
fn doubled() {
    for (instruction, depth) in [(3, 60), (4, 60), (3, 127)] {
        let mut built = Built::new();
        let name = built.name(b"a");
        built.expression([4, 0, 0, name, 0]);
        for k in 0..depth {
            let x = built.next();
            assert_eq!(built.code([instruction, x, x, x]), k);
            built.expression([4, k + 1, 0, 0, 0]);
        }
        let integer = built.next();
        built.code([2, integer, 0, 0]);
        built.expression([0, 7, 0, 0, 0]);
        let m = built.whole(1);
        for space in [0, 11, 1_000, TEXT_BUFFER, 1 << 20] {
            let m = m.clone();
            assert_eq!(within(Duration::from_secs(10), move || written(&m, space)), Err(Refusal(23)));
        }
    }
}

/// The same, four deep: it fits, and each of the two stands there in full.
#[test]
fn doubled_a_little() {
    let mut built = Built::new();
    let name = built.name(b"a");
    built.expression([4, 0, 0, name, 0]);
    let mut code = String::from("code { self := 7 * 7 ; }");
    for k in 0..4 {
        let x = built.next();
        built.code([3, x, x, 0]);
        built.expression([4, k + 1, 0, 0, 0]);
        code = format!("code {{ jump {code} {code} ; }}");
    }
    let product = built.next();
    built.code([0, 0, 0, product]);
    built.expression([9, product + 1, product + 1, 0, 0]);
    built.expression([0, 7, 0, 0, 0]);
    assert_eq!(text(&text_of(&built.whole(1))), format!("frame : [ a := {code} ]"));
}

/// Frames and codes as deep as they can be.
#[test]
fn deepest() {
    for (outside, codes, inside) in
        [(0, 1, 0), (3, 2, 1), (1_020, 1, 0), (0, 1, 1_020), (893, 128, 0), (125, 128, 6)]
    {
        let m = deep(outside, codes, inside);
        let times = |part: &str, count: u32| part.repeat(count as usize);
        let opened = format!("code {{ self := {}", times("frame : [ a := ", inside));
        let closed = format!("{} ; }}", times(" ]", inside));
        let path = format!("^{}.b", times(".^", outside));
        let expected = format!(
            "frame : [ {}a := {}{path} # \"{}\"{}{} ]",
            times("a := frame : [ ", outside),
            times(&opened, codes),
            "x".repeat(64),
            times(&closed, codes),
            times(" ]", outside)
        );
        assert_eq!(text(&within(Duration::from_secs(10), move || text_of(&m))), expected);
    }
}

/// Paths of as many names as there can be, in code that a frame holds which is as deep.
#[test]
fn longest_paths() {
    const DEPTH: usize = 1_000;
    let mut built = Built::new();
    let a = built.name(b"a");
    for _ in 0..DEPTH {
        built.expression([5, 1, 0, a, 0]);
    }
    built.expression([4, 0, 0, a, 0]);
    let first = built.path(3, &[a; DEPTH]);
    let second = built.path(3, &[a; DEPTH + 40]);
    let third = built.expression([3, 0, 0, 0, 0]);
    built.code([4, first, second, third]);
    let bytes = text_of(&built.whole(1));
    let (down, up) = (".a".repeat(40), ".^".repeat(DEPTH));
    let expected = format!("code {{ ifeq ^ ^{down} ^{up} ; }}{} ]", " ]".repeat(DEPTH));
    assert!(bytes.ends_with(expected.as_bytes()));
}

/// A path of 800 names that are all those of the holding frame is one `^`, and stands in the text again and again.
#[test]
fn costly_paths() {
    const DEPTH: usize = 800;
    let mut built = Built::new();
    let a = built.name(b"a");
    for _ in 0..DEPTH {
        built.expression([5, 1, 0, a, 0]);
    }
    built.expression([4, 0, 0, a, 0]);
    for k in 1..100 {
        let x = built.next();
        built.code([4, x, x, x]);
        built.expression([4, k, 0, 0, 0]);
    }
    let path = built.path(3, &[a; DEPTH]);
    built.code([4, path, path, path]);
    let m = built.whole(1);
    assert_eq!(within(Duration::from_secs(10), move || written(&m, 1 << 20)), Err(Refusal(23)));
}

/// A name of whole memories has any bytes.
#[test]
fn names_of_any_bytes() {
    let mut m = load(b"frame: [ Main := frame: [ start := code { show ^.x; } ] ]", 3, 0).unwrap();
    assert_eq!(m.program[2], 3);
    let names: [&[u8]; 3] = [b"\0\n \"[]\xff;code{}//", &[200], b"frame"];
    for (k, name) in names.iter().enumerate() {
        let at = 64 + 17 * k;
        m.program[at] = name.len() as u32;
        name.iter().zip(&mut m.program[at + 1..]).for_each(|(&byte, word)| *word = byte.into());
    }
    let expected =
        [&b"frame : [ "[..], names[0], b" := frame : [ ", names[1], b" := code { show ^.", names[2], b" ; } ] ]"];
    assert!(text_of(&m) == expected.concat());
}

/// Paths, operators and `!` outside code; slots of the program frame that begin anywhere, or are none.
#[test]
fn other_slots() {
    let mut built = Built::new();
    let (a, b) = (built.name(b"a"), built.name(b"b"));
    built.expression([5, 1, 0, a, 0]);
    built.expression([6, 5, 0, a, 1]);
    built.expression([13, 6, 7, b, 0]);
    built.path(3, &[b]);
    built.path(2, &[a, b]);
    built.expression([4, 0, 0, 0, 0]);
    built.path(3, &[a, b]);
    built.path(3, &[b]);
    built.code([2, 3, 0, 0]);
    let Built(m) = built;
    for (slots, expected) in [
        (0, "frame : [ ]"),
        (1, "frame : [ a := frame : [ a := ! code { show ^.^.b ; } , b := ^.b == ^.^.b ] ]"),
        (2, "frame : [ a := ! code { show ^.b ; } , b := ^.a.b == ^.b ]"),
        (3, "frame : [ b := ^.a.b == ^.b ]"),
        (4, "frame : [ a := ^.b ]"),
        (5, "frame : [ a := self.a.b ]"),
    ] {
        assert_eq!(text(&text_of(&Built(m.clone()).whole(slots))), expected);
    }
}
