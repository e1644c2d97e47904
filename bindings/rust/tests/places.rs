//! Where refusals and ends come from: the numbers are those of load and run, and the places and words are exact.
mod common;

use common::{damaged_source, long_source, random_bytes, rounds, stored_sources, Random, Writer};
use framed::places::{ended, place, places, refused, Place, Places};
use framed::{plain, Memories, Refusal, RunReport, Stop};

fn load(source: &[u8], frames: u32, texts: u32, m: &mut Memories) -> Result<(), Refusal> {
    plain::load(source, frames, texts, &mut m.program, &mut m.heap, &mut m.literals, &mut m.texts)
}

/// A run of the proved machine, where there is one.
fn run(m: &mut Memories, fuel: u32, out: &mut [u8]) -> RunReport {
    #[cfg(feature = "machine")]
    use framed::machine::run;
    #[cfg(not(feature = "machine"))]
    use framed::plain::run;
    run(&m.program, &mut m.heap, &m.literals, &mut m.texts, fuel, out).unwrap()
}

#[cfg(feature = "machine")]
fn proved_load(source: &[u8], frames: u32, texts: u32, m: &mut Memories) -> Result<(), Refusal> {
    framed::machine::load(source, frames, texts, &mut m.program, &mut m.heap, &mut m.literals, &mut m.texts)
}

/// Without the proved machine there is only the plain one.
#[cfg(not(feature = "machine"))]
use load as proved_load;

/// `refused` agrees with both loads, and its place is in the source; gives its number, or 0.
fn agrees(source: &[u8], frames: u32, texts: u32, m: &mut Memories) -> u32 {
    let number = load(source, frames, texts, m).err().map_or(0, |refusal| refusal.0);
    let proved = proved_load(source, frames, texts, m).err().map_or(0, |refusal| refusal.0);
    let found = refused(source, frames, texts);
    let text = String::from_utf8_lossy(source);
    assert_eq!((number, proved), found.as_ref().map_or((0, 0), |r| (r.number, r.number)), "{frames} {texts} {text}");
    if let Some(found) = found {
        assert_eq!(found.at.is_none(), number == 2, "{found:?} of {text}");
        assert!(found.at.unwrap_or(0) <= source.len(), "{found:?} of {text}");
        assert!(!found.detail.is_empty() && found.detail.is_ascii(), "{found:?} of {text}");
    }
    if number != 2 || texts <= 256 {
        assert_eq!(places(source, frames).err(), (number != 0).then_some(Refusal(number)), "{text}");
    }
    number
}

fn limits(random: &mut Random) -> (u32, u32) {
    (random.pick(&[2, 3, 4, 6, 9, 40, 256, 257]), random.pick(&[0, 1, 5, 256, 257]))
}

#[test]
fn refused_as_load_refuses() {
    let mut random = Random(31);
    let mut m = Memories::new();
    let mut numbers = [0; 13];
    let stored = stored_sources();
    for source in &stored {
        numbers[agrees(source, 256, 256, &mut m) as usize] += 1;
        for (frames, texts) in [(3, 0), (5, 256), limits(&mut random)] {
            numbers[agrees(source, frames, texts, &mut m) as usize] += 1;
        }
    }
    for round in 0..rounds(3_000) {
        let source = match round % 8 {
            0 => random_bytes(&mut random),
            1 | 2 => damaged_source(&stored[random.below(stored.len())], &mut random),
            3 if round % 16 == 3 => long_source(&mut random).into_bytes(),
            3 | 4 => Writer::source(&mut random).into_bytes(),
            _ => damaged_source(Writer::source(&mut random).as_bytes(), &mut random),
        };
        let (frames, texts) = if random.one_in(3) { limits(&mut random) } else { (256, 256) };
        numbers[agrees(&source, frames, texts, &mut m) as usize] += 1;
    }
    println!("by number: {numbers:?}");
    for (number, &count) in numbers.iter().enumerate() {
        assert!(count > 0 || number == 1, "no source was refused with {number}");
    }
}

/// Damage that leaves most sources one frame, so that the numbers from 7 on come together.
#[test]
fn meanings_as_load_judges() {
    const MORE: [&str; 12] = [
        "a := 1, ", "b := self, ", "c := ^.^.^.^.a, ", "d := !1, ", "e := 1 + 2, ", "f := frame: [ a := 1, a := 2 ], ",
        "g := code { self := ^.^.^.^.^; }, ", "h := frame: [ frame_ := frame: [] ], ",
        "i := frame: [ a:=1,b:=1,c:=1,d:=1,e:=1,f:=1,g:=1,h:=1,i:=1,j:=1,k:=1,l:=1,m:=1,n:=1,o:=1,p:=1,q:=1 ], ",
        "Main := 5, ", "start := 6, ", "j := code { self.x := frame: [ a := 1, b := 2, a := self ]; }, ",
    ];
    let mut random = Random(32);
    let mut m = Memories::new();
    let mut numbers = [0; 13];
    for _ in 0..rounds(1_500) {
        let mut source = String::from("frame: [ ");
        for _ in 0..random.below(3) {
            source.push_str(random.pick(&MORE));
        }
        source.push_str(random.pick(&["Main := frame: [ ", "Main := frame: [ ", "other := frame: [ "]));
        for _ in 0..random.below(2) {
            source.push_str(random.pick(&MORE));
        }
        source.push_str(random.pick(&["start := code {} ] ]", "start := code {} ] ]", "] ]", "start := 1 ] ]"]));
        numbers[agrees(source.as_bytes(), random.pick(&[3, 4, 256]), 0, &mut m) as usize] += 1;
    }
    println!("by number: {numbers:?}");
    assert!([0, 7, 8, 10, 11, 12].iter().all(|&number: &usize| numbers[number] > 0));
}

/// As many parts as load counts, each with a text of its form.
fn check_places(source: &[u8], m: &Memories, found: &Places) {
    let counts = [found.expressions.len(), found.instructions.len(), found.codes.len()];
    assert_eq!(counts, [m.program[4], m.program[5], m.program[6]].map(|count| count as usize));
    assert_eq!(found.targets.len(), found.instructions.len());
    for (i, range) in found.instructions.iter().enumerate() {
        assert!(source[range.clone()].ends_with(b";"));
        let kind = m.program[4_544 + 5 * i];
        assert_eq!(found.targets[i].is_some(), kind <= 1);
        let words = ["self", "^", "show", "jump", "ifeq"];
        assert!(source[range.clone()].starts_with(words[kind as usize].as_bytes()), "instruction {i}");
    }
    for (x, range) in found.expressions.iter().enumerate() {
        let text = &source[range.clone()];
        let a = m.program[7_104 + 5 * x + 1];
        match m.program[7_104 + 5 * x] {
            0 => assert_eq!(std::str::from_utf8(text).unwrap().parse(), Ok(a as i32)),
            1 => {
                let length = m.program[2_240 + a as usize] as usize;
                let literal = &m.literals[64 * a as usize..][..length];
                assert_eq!(text, [b"\"", literal, b"\""].concat());
            }
            2 => assert!(text.starts_with(b"self")),
            3 => assert!(text.starts_with(b"^")),
            4 => assert_eq!(*range, found.codes[a as usize]),
            5 => assert!(text.starts_with(b"frame") && text.ends_with(b"]")),
            6 => assert!(text.starts_with(b"!")),
            _ => {
                let [a, b] = [a, m.program[7_104 + 5 * x + 2]].map(|y| &found.expressions[y as usize]);
                assert_eq!((a.start, b.end), (range.start, range.end));
            }
        }
    }
}

/// One step: `ended` says beforehand which end it gives, if any.
fn step_and_ask(source: &[u8], m: &mut Memories, found: &Places) -> Stop {
    let (position, before) = (m.heap[4], ended(m, found, source));
    let stop = run(m, 1, &mut [0; 70]).stop;
    let text = String::from_utf8_lossy(source);
    let Stop::End(end) = stop else {
        assert_eq!(before, None, "{text}");
        return stop;
    };
    let before = before.unwrap_or_else(|| panic!("{end} of {text}"));
    assert_eq!((before.number, before.instruction + 1), (end as u32, position), "{text}");
    assert!(!before.detail.is_empty() && before.detail.is_ascii(), "{before:?} of {text}");
    assert_eq!(before.operand.is_none(), before.number >= 36, "{before:?} of {text}");
    let all = &found.instructions[before.instruction as usize];
    let inside = before.operand.iter().all(|part| all.start <= part.start && part.end <= all.end);
    assert!(inside, "{before:?} of {text}");
    assert_eq!(ended(m, found, source), Some(before), "an end changes only the mark");
    stop
}

/// Runs in slices with asked steps between them; gives the last stop.
fn run_and_ask(source: &[u8], frames: u32, texts: u32, random: &mut Random) -> Option<Stop> {
    let mut m = Memories::new();
    load(source, frames, texts, &mut m).ok()?;
    let found = places(source, frames).unwrap();
    check_places(source, &m, &found);
    let mut out = [0; 700];
    for _ in 0..12 {
        let stop = step_and_ask(source, &mut m, &found);
        if matches!(stop, Stop::End(_) | Stop::Done) {
            return Some(stop);
        }
        let before = m.clone();
        let report = run(&mut m, random.below(60) as u32, &mut out);
        if matches!(report.stop, Stop::End(_)) {
            // back to the instruction that ends
            m = before;
            run(&mut m, report.steps, &mut out);
        }
    }
    Some(step_and_ask(source, &mut m, &found))
}

#[test]
fn ended_as_run_ends() {
    let mut random = Random(33);
    let mut stops = std::collections::BTreeMap::new();
    let mut count = |stop: Option<Stop>| *stops.entry(stop.map(|stop| stop.to_string())).or_insert(0) += 1;
    for source in stored_sources() {
        count(run_and_ask(&source, 256, 256, &mut random));
        count(run_and_ask(&source, random.pick(&[4, 6, 9]), random.pick(&[0, 1, 3]), &mut random));
    }
    for _ in 0..rounds(1_500) {
        let source = Writer::source(&mut random).into_bytes();
        let source = if random.one_in(3) { damaged_source(&source, &mut random) } else { source };
        let (frames, texts) = (random.pick(&[5, 6, 8, 12, 256]), random.pick(&[0, 1, 2, 256]));
        count(run_and_ask(&source, frames, texts, &mut random));
    }
    println!("{stops:?}");
    for end in 31..=37 {
        assert!(stops.contains_key(&Some(end.to_string())), "no run ended with {end}");
    }
}

/// Any memories, places and source get an answer.
#[test]
fn ended_of_anything() {
    let mut random = Random(34);
    for _ in 0..rounds(400) {
        let source = Writer::source(&mut random);
        let mut m = Memories::new();
        if load(source.as_bytes(), 12, 2, &mut m).is_err() {
            continue;
        }
        let found = places(source.as_bytes(), 12).unwrap();
        run(&mut m, random.below(40) as u32, &mut [0; 400]);
        let _ = ended(&m, &Places::default(), b"");
        let _ = ended(&m, &found, &damaged_source(source.as_bytes(), &mut random));
        common::damage(&mut m, &mut random);
        let _ = ended(&m, &found, source.as_bytes());
    }
    let m = Memories::new();
    assert_eq!(ended(&m, &Places::default(), b""), None);
}

#[test]
fn lines_and_columns() {
    let source = b"ab\n\ncd\r\n";
    let lines = [(1, 1), (1, 2), (1, 3), (2, 1), (3, 1), (3, 2), (3, 3), (3, 4), (4, 1)];
    for (at, (line, column)) in lines.into_iter().enumerate() {
        assert_eq!(place(source, at), Place { line, column });
    }
    assert_eq!(place(source, 99), Place { line: 4, column: 1 });
    assert_eq!(place(b"", 0), Place { line: 1, column: 1 });
}

/// Source, and what it is refused with over F = 8 and T = 8: number, line, column and detail.
const REFUSALS: &[(&str, u32, usize, usize, &str)] = &[
    ("frame: [ a_name_of_twenty_three_ := 1 ]", 4, 1, 10, "a name of 23 bytes where 16 is the most"),
    ("frame: [ a := 2147483648 ]", 4, 1, 15, "the integer `2147483648` is out of range, -2147483648 to 2147483647"),
    ("frame: [ a :=\n -2147483649-1 ]", 4, 2, 2,
        "the integer `-2147483649` is out of range, -2147483648 to 2147483647"),
    ("frame: [ a := \"text ]", 4, 1, 15, "a string that is not closed"),
    ("frame: [ a := \"text\n\" ]", 4, 1, 15, "a string that is not closed on its line"),
    ("frame: [ a := \"te\txt\" ]", 4, 1, 18, "byte 9 in a string, where only 32 to 126 may stand"),
    ("frame: [ a @ 5 ]", 4, 1, 12, "byte 64 `@` begins no token"),
    ("frame: [ a \u{1} 5 ]", 4, 1, 12, "byte 1 begins no token"),
    ("frame: [ a := 5, \u{e9} := 5 ]", 4, 1, 18, "byte 195 begins no token: the character U+00E9"),
    ("\u{feff}frame: []", 4, 1, 1, "byte 239 begins no token: a byte order mark"),
    ("frame:\u{a0}[]", 4, 1, 7, "byte 194 begins no token: a no-break space"),
    ("frame: [ a := \"say \\\"hi\\\"\" ]", 4, 1, 24, "byte 92 `\\` begins no token, and strings have no escapes"),
    ("frame: [ a := code { self.a := 1 != 2; } ]", 4, 1, 35, "a lone `=`; `:=` and `==` are tokens, and `!=` is none"),
    ("frame: [ a = 5 ]", 4, 1, 12, "a lone `=`; `:=` and `==` are tokens"),
    ("frame: [ a :== 5 ]", 4, 1, 14, "a lone `=`; `:=` and `==` are tokens"),
    ("frame: [ a := 1 & 2 ]", 4, 1, 17, "a lone `&`; `&&` is a token"),
    ("frame: [ a := 1 ||| 2 ]", 4, 1, 19, "a lone `|`; `||` is a token"),
    ("[[[[ [[[[ [[[[ [[[[\n {[", 5, 2, 2, "`{` is the 17th open bracket, 16 are the most"),
    ("", 6, 1, 1, "expected `frame`, found the end of the source"),
    ("// nothing\n", 6, 2, 1, "expected `frame`, found the end of the source"),
    ("Main := 5", 6, 1, 1, "expected `frame`, found `Main`"),
    ("frame [ ]", 6, 1, 7, "expected `:`, found `[`"),
    ("frame: { }", 6, 1, 8, "expected `[`, found `{`"),
    ("frame: [,]", 6, 1, 9, "expected a name or `]`, found `,`"),
    ("frame: [ show := 1 ]", 6, 1, 10, "expected a name or `]`, found the reserved word `show`"),
    ("frame:\n[\n  a : 5 ]", 6, 3, 5, "expected `:=` behind the name `a`, found `:`"),
    ("frame: [\n\n  long_name 5 ]", 6, 3, 13, "expected `:=` behind the name `long_name`, found the integer `5`"),
    ("frame: [ a := ; ]", 6, 1, 15, "expected an integer, a string, `code` or `frame`, found `;`"),
    ("frame: [ a := 5 show ]", 6, 1, 17, "expected `,` or `]`, found `show`"),
    ("frame: [ a := 5 b := 6 ]", 6, 1, 17, "expected `,` or `]`, found `b`"),
    ("frame: [ a := 5\n b := 6 ]", 6, 2, 2, "expected `,` or `]` behind `5` at 1:15, found `b`"),
    ("frame: [ a := 5", 6, 1, 16, "expected `,` or `]`, found the end of the source; `[` at 1:8 is open"),
    ("frame: [] frame", 6, 1, 11, "expected the end of the source, found `frame`"),
    ("frame: [ a := code [] ]", 6, 1, 20, "expected `{`, found `[`"),
    ("frame: [ a := code { x := 5; } ]", 6, 1, 22, "expected a path, `show`, `jump`, `ifeq` or `}`, found `x`"),
    ("frame: [ a := code { ;", 6, 1, 22, "expected a path, `show`, `jump`, `ifeq` or `}`, found `;`"),
    ("frame: [ a := code { show self.a -1; } ]", 6, 1, 34, "expected `.` or `;`, found the integer `-1`"),
    ("frame: [ a := code { self.a := self.b -1; } ]", 6, 1, 39,
        "expected `.`, an operator or `;`, found the integer `-1`; a difference has a space behind its `-`"),
    ("frame: [ a := code { self.a := 5 5; } ]", 6, 1, 34, "expected an operator or `;`, found the integer `5`"),
    ("frame: [ a := code {\n self.a := 5\n show 5; } ]", 6, 3, 2,
        "expected an operator or `;` behind `5` at 2:12, found `show`"),
    ("frame: [ a := code { self.a := 5; /* no */ } ]", 6, 1, 35,
        "expected a path, `show`, `jump`, `ifeq` or `}`, found `/`; comments begin with `//`"),
    ("frame: [ a := code { self.a := 5 + 5 + 5; } ]", 6, 1, 38, "expected `;`, found `+`"),
    ("frame: [ a := code { self.a := 5 + frame: []; } ]", 6, 1, 36,
        "expected an integer, a string, a path or `code`, found `frame`"),
    ("frame: [ a := code { self.a := * 5; } ]", 6, 1, 32,
        "expected an integer, a string, a path, `code`, `frame` or `!`, found `*`"),
    ("frame: [ a := code { self.a 5; } ]", 6, 1, 29, "expected `.` or `:=`, found the integer `5`"),
    ("frame: [ a := code { self.frame := 5; } ]", 6, 1, 27, "expected a name, found the reserved word `frame`"),
    ("frame: [ a := code { ^.^.5 := 5; } ]", 6, 1, 26, "expected `^` or a name, found the integer `5`"),
    ("frame: [ a := code { ^.a.^ := 5; } ]", 6, 1, 26, "expected a name, found `^`"),
    ("frame: [ a := code { jump ^.a; } ]", 6, 1, 30,
        "expected an integer, a string, a path or `code`, found `;`; `jump` has two operands, a code and what becomes self"),
    ("frame: [ a := code { ifeq 1; } ]", 6, 1, 28,
        "expected an integer, a string, a path or `code`, found `;`; \
         `ifeq` has three operands, a value, a code and what becomes self"),
    ("frame: [ a := code { show 5 } ]", 6, 1, 29, "expected `;`, found `}`"),
    ("frame: [ a := code { show 5; ] ]", 6, 1, 30, "expected a path, `show`, `jump`, `ifeq` or `}`, found `]`"),
    ("frame: [\n a := self . b // c\n . d, e := 1 + 2 ]", 7, 2, 7, "the path `self.b.d` stands outside code"),
    ("frame: [ e := 1\n+ 2, f := self ]", 7, 2, 1, "the operator `+` stands outside code"),
    ("frame: [ e := frame: [ f := !1 ] ]", 7, 1, 29, "`!` stands outside code"),
    ("frame: [ a := 1, b := frame: [ c := 1, c := 2, b := 1 ],\na := 1 ]", 8, 1, 40,
        "`c` is a slot of the same frame already"),
    ("frame: [ a := 1, b := frame: [ c := 1, b := 1 ],\na := frame: [ c := 1, c := 1 ] ]", 8, 2, 1,
        "`a` is a slot of the same frame already"),
    ("frame: [ a := code { self := frame: [ a := 1, a := 2 ]; } ]", 8, 1, 47,
        "`a` is a slot of the same frame already"),
    ("frame: [ a:=1,b:=1,c:=1,d:=1,e:=1,f:=1,g:=1,h:=1,i:=1,j:=1,k:=1,l:=1,m:=1,n:=1,o:=1,p:=1,\n  q:=1, r:=1 ]",
        8, 2, 3, "`q` is the 17th slot of its frame, 16 are the most"),
    ("frame: [ Main := frame: [ start := code { self.a := ^ . ^ . ^.b; } ] ]", 10, 1, 53,
        "`^.^.^` goes up 3 frames, and its code stands in 2"),
    ("frame: [ c := code { ^.^ := 1; } ]", 10, 1, 22, "`^.^` goes up 2 frames, and its code stands in 1"),
    (" frame: [ main := 5 ]", 11, 1, 2, "no slot `Main` in the program frame"),
    ("frame: [ a := 1, Main := 5 ]", 11, 1, 18, "`Main` is not a frame"),
    ("frame: [ a := 1, Main := frame: [ a := 5 ] ]", 11, 1, 26, "no slot `start` in the frame `Main`"),
    ("frame: [ a := 1, Main := frame: [\n start := frame: [] ] ]", 11, 2, 2, "`start` of `Main` is not a code"),
    ("frame: [ Main := frame: [ start := code { self := frame: []; } ], a := frame: [], b := frame: [], c := frame: [],\
      \nd := frame: [], e := frame: [], f := frame: [], g := frame: [] ]",
        12, 2, 38, "9 frames written outside code and one for self; F is 8, 10 is the least"),
];

fn assert_refused(source: &str, frames: u32, texts: u32, number: u32, at: Option<(usize, usize)>, detail: &str) {
    let found = refused(source.as_bytes(), frames, texts).unwrap_or_else(|| panic!("{source} loads"));
    let place = found.at.map(|at| place(source.as_bytes(), at)).map(|place| (place.line, place.column));
    assert_eq!((found.number, place, found.detail.as_str()), (number, at, detail), "{source}");
    agrees(source.as_bytes(), frames, texts, &mut Memories::new());
}

#[test]
fn exact_refusals() {
    for &(source, number, line, column, detail) in REFUSALS {
        assert_refused(source, 8, 8, number, Some((line, column)), detail);
    }
    let source = "frame: [ Main := frame: [ start := code {} ] ]";
    assert_refused(source, 2, 0, 2, None, "F is 2, its range is 3 to 256");
    assert_refused(source, 3, 257, 2, None, "T is 257, its range is 0 to 256");
    assert_refused(source, 257, 300, 2, None, "F is 257, its range is 3 to 256; T is 300, its range is 0 to 256");
    let long = format!("{source}{}", "\n".repeat(16_385 - source.len()));
    let place = place(long.as_bytes(), 16_384);
    assert_refused(&long, 3, 0, 3, Some((place.line, place.column)), "the source has 16385 bytes, 16384 are the most");
    let string = format!("frame: [ a := \"{}\" ]", "x".repeat(70));
    assert_refused(&string, 3, 0, 4, Some((1, 15)), "a string of 70 bytes where 64 is the most");
    let zeros = format!("frame: [ {} ]", "0".repeat(90));
    let found = format!("expected a name or `]`, found the integer `{}..`", "0".repeat(70));
    assert_refused(&zeros, 3, 0, 6, Some((1, 10)), &found);
}

/// `item` so many times, its letter N the number.
fn repeated(count: usize, item: &str) -> String {
    (0..count).map(|n| item.replace('N', &n.to_string())).collect()
}

/// The counts of number 9, each one above its limit at the mark `?`.
#[test]
fn exact_counts() {
    let groups: String =
        (0..9).map(|g| format!("g{g} := frame: [ {} ],\n", repeated(13, &format!("a{g}_N := N, ")))).collect();
    let after = |count, item, last: &str| main_of(&(repeated(count, item) + last));
    let cases = [
        (groups + &main_of("\nself.?x := 1;"), "the 129th distinct name, 128 are the most"),
        (after(128, "show \"N\";\n", "show ?\"a\";"), "the 129th string, 128 are the most"),
        (after(127, "show code {};\n", "show ?code {};"), "the 129th code, 128 are the most"),
        (after(512, "show 1;\n", "?show 1;"), "the 513th instruction, 512 are the most"),
        (after(340, "self.a := N + 1;\n", "self.a := 1 + ?1;"), "the 1025th expression, 1024 are the most"),
        (
            after(511, "show ^.a.a.a;\n", "show ?self.a.a.a.a.a;"),
            "the resolved paths up to this one have 2049 names, 2048 are the most",
        ),
    ];
    for (body, detail) in cases {
        let marked = format!("frame: [ {body} ]");
        let at = marked.find('?').unwrap();
        let source = marked.replace('?', "");
        let place = place(source.as_bytes(), at);
        assert_refused(&source, 256, 0, 9, Some((place.line, place.column)), detail);
    }
}

fn main_of(start: &str) -> String {
    format!("Main := frame: [ start := code {{ {start} }} ]")
}

/// Instructions of start, and the end that they come to over F = 6 and T = 2: number, the operand as written, detail.
const ENDS: &[(&str, u32, &str, &str)] = &[
    ("show self.b;", 31, "self.b", "`self.b`: no slot `b` in self"),
    ("show self. b .c;", 31, "self. b .c", "`self.b.c`: no slot `b` in self"),
    ("self.b := 5; show self.b.c;", 31, "self.b.c", "`self.b.c`: self.b is an integer and not a frame"),
    ("self.b := \"t\"; show self.b.c.d;", 31, "self.b.c.d", "`self.b.c.d`: self.b is a text and not a frame"),
    ("self := 5; show self.b;", 31, "self.b", "`self.b`: self is an integer and not a frame"),
    ("show ^.absent;", 31, "^.absent", "`^.absent`: no slot `absent` in ^, which is `Main`"),
    ("show ^ . ^.n.x;", 31, "^ . ^.n.x", "`^.^.n.x`: ^.^.n is an integer and not a frame"),
    ("show ^.start.x;", 31, "^.start.x", "`^.start.x`: ^.start is a code and not a frame"),
    ("^.^ := 7; show ^.start;", 31, "^.start", "`^.start`: program is an integer and not a frame"),
    ("^.^ := frame: []; show ^.^.n;", 31, "^.^.n", "`^.^.n`: no slot `n` in ^.^, which is the program"),
    ("^.^.Main := code {}; show ^.start;", 31, "^.start", "`^.start`: ^ is a code and not a frame"),
    ("^.^ := frame: []; show ^.start;", 31, "^.start", "`^.start`: no slot `Main` in program"),
    ("self.x := \"t\"; self.y := self.x + 1;", 31, "self.x", "`self.x` is a text, and `+` wants two integers"),
    ("self.y := 1 - \"abc\";", 31, "\"abc\"", "`\"abc\"` is a text, and `-` wants two integers"),
    ("self.y := code { show 1; } * ^.^.n;", 31, "code { show 1; }",
        "`code {..}` is a code, and `*` wants two integers"),
    ("self.y := 1 < self;", 31, "self", "`self` is a frame, and `<` wants two integers"),
    ("self.y := ^ / self.absent;", 31, "self.absent", "`self.absent`: no slot `absent` in self"),
    ("self.y := ^ / 0;", 31, "^", "`^` is a frame, and `/` wants two integers"),
    ("self.y := !self.absent;", 31, "self.absent", "`self.absent`: no slot `absent` in self"),
    ("self.n := 1; jump self.n self.m;", 31, "self.n", "the target of a jump must be a code; `self.n` is an integer"),
    ("jump ^.start self.m;", 31, "self.m", "`self.m`: no slot `m` in self"),
    ("jump 0007 self;", 31, "0007", "the target of a jump must be a code; `7` is an integer"),
    ("ifeq 0 \"t\" self.m;", 31, "\"t\"", "the target of a jump must be a code; `\"t\"` is a text"),
    ("ifeq self.m 1 2;", 31, "self.m", "`self.m`: no slot `m` in self"),
    ("self.y := \"a\" # self.f;", 31, "self.f", "`self.f`: no slot `f` in self"),
    ("self.y := ^.start # self.x; show self.y;", 31, "self.x", "`self.x`: no slot `x` in self"),
    ("self.b.c := 5;", 31, "self.b.c", "`self.b.c`: no slot `b` in self"),
    ("self.b := 5; self.b.c := 5;", 31, "self.b.c", "`self.b.c`: self.b is an integer and not a frame"),
    ("^.^.n.c.d := self.absent;", 31, "self.absent", "`self.absent`: no slot `absent` in self"),
    ("^.^.n.c.d := 5;", 31, "^.^.n.c.d", "`^.^.n.c.d`: ^.^.n is an integer and not a frame"),
    ("self := frame: [ a := 1, b := frame: [ c := self.x ], d := 1 / 0 ];", 31, "self.x",
        "`self.x`: no slot `x` in self"),
    ("self := frame: [ a := 1, d := 1 / 0, b := self.x ];", 32, "0", "the divisor is 0"),
    ("self.z := 0; self.y := -2147483648 / self.z;", 32, "self.z", "the divisor is 0"),
    ("self.y := -2147483648 / -1;", 33, "-2147483648 / -1",
        "-2147483648 / -1 is 2147483648, the range is -2147483648 to 2147483647"),
    ("self.x := 2147483647; self.y := self.x + 1;", 33, "self.x + 1",
        "2147483647 + 1 is 2147483648, the range is -2147483648 to 2147483647"),
    ("self.y := -2147483648 * -2147483648;", 33, "-2147483648 * -2147483648",
        "-2147483648 * -2147483648 is 4611686018427387904, the range is -2147483648 to 2147483647"),
    ("self.a.b := -5 - 2147483647;", 33, "-5 - 2147483647",
        "-5 - 2147483647 is -2147483652, the range is -2147483648 to 2147483647"),
    ("self.t := \"0123456789012345678901234567890123456789012345678901234567\"; self.t := self.t # -123456;", 34,
        "self.t # -123456", "the joined text would have 65 bytes, 64 are the most"),
    ("self.t := \"0123456789012345678901234567890123456789012345678901234567\" # self; self.t := ^.start # self.t;", 34,
        "^.start # self.t", "the joined text would have 67 bytes, 64 are the most"),
    ("self.a:=1; self.b:=1; self.c:=1; self.d:=1; self.e:=1; self.f:=1; self.g:=1; self.h:=1; self.i:=1; self.j:=1; \
      self.k:=1; self.l:=1; self.m:=1; self.n:=1; self.o:=1; self.p:=self; self.p.q := 1;", 35,
        "self.p.q", "`self.p` has 16 slots, `q` would be the 17th"),
    ("self.a := frame: []; self.b := frame: []; self.c := frame: []; self.d := frame: [ a := self.absent ];", 36,
        "", "6 frames reached, the instruction makes 1, F is 6"),
    ("^ := 1; self := frame: [ a := frame: [], b := frame: [], c := frame: [ a := frame: [] ] ];", 36, "",
        "2 frames reached, the instruction makes 5, F is 6"),
    ("self.a := 1 # 1; self.b := self.a; self.a := 2 # self.absent; ", 31, "self.absent",
        "`self.absent`: no slot `absent` in self"),
    ("self.a := 1 # 1; self.b := 1 # 1; self.a := 2 # self.absent; ", 37, "",
        "2 made texts reached, the instruction makes 1, T is 2"),
    ("self.a := 1 # 1; self := frame: [ a := 1 # 1, b := self.a, c := 1 # self ];", 37, "",
        "1 made text reached, the instruction makes 2, T is 2"),
];

#[test]
fn exact_ends() {
    for &(start, number, operand, detail) in ENDS {
        let source = format!("frame: [ n := 5,\n Main := frame: [ start := code {{ {start} }} ] ]");
        let mut m = Memories::new();
        load(source.as_bytes(), 6, 2, &mut m).unwrap_or_else(|refusal| panic!("{refusal} of {source}"));
        let found = places(source.as_bytes(), 6).unwrap();
        let report = run(&mut m, 100, &mut [0; 100]);
        let ended = ended(&m, &found, source.as_bytes()).unwrap_or_else(|| panic!("no end of {source}"));
        let written = ended.operand.map_or("", |range| &source[range]);
        assert_eq!((ended.number, written, ended.detail.as_str()), (number, operand, detail), "{source}");
        assert_eq!((report.stop.to_string(), ended.instruction + 1), (number.to_string(), m.heap[4]), "{source}");
    }
}

/// The ranges of a small source.
#[test]
fn exact_places() {
    let source = "frame: [ n := 5, Main := frame: [ start := code { self . a := code { show 1; } + ^.n; } ] ]";
    let found = places(source.as_bytes(), 3).unwrap();
    let texts = |ranges: &[std::ops::Range<usize>]| -> Vec<String> {
        ranges.iter().map(|range| source[range.clone()].to_string()).collect()
    };
    let code = "code { self . a := code { show 1; } + ^.n; }";
    assert_eq!(
        texts(&found.expressions),
        [
            "5",
            "frame: [ start := code { self . a := code { show 1; } + ^.n; } ]",
            code,
            "code { show 1; } + ^.n",
            "code { show 1; }",
            "1",
            "^.n"
        ]
    );
    assert_eq!(texts(&found.instructions), ["self . a := code { show 1; } + ^.n;", "show 1;"]);
    assert_eq!(texts(&found.codes), [code, "code { show 1; }"]);
    let targets: Vec<_> = found.targets.iter().map(|target| target.clone().map(|range| &source[range])).collect();
    assert_eq!(targets, [Some("self . a"), None]);
    assert_eq!(places(b"frame: []", 3), Err(Refusal(11)));
    assert_eq!(places(b"frame: []", 2), Err(Refusal(2)));
}
