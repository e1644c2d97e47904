//! Makers, over the plain implementation and over the machine, which must give the same answers: each frame has the number
//! of the instruction whose step made it, counted by where it begins in the source, and the counts of makers are those of
//! the frames that are reached. Whole memories have a maker that exists, or 0, in each frame in use.
mod common;

use common::{rounds, stored_sources, Random, Writer};
use framed::places::places;
use framed::{plain, Found, Memories, Refusal, Stop, MAKERS};

fn load(source: &[u8], frames: u32, texts: u32) -> Result<Memories, Refusal> {
    let mut m = Memories::new();
    plain::load(source, frames, texts, &mut m.program, &mut m.heap, &mut m.literals, &mut m.texts)?;
    Ok(m)
}

fn run(m: &mut Memories, fuel: u32) -> Stop {
    let mut out = vec![0; 4_096];
    plain::run(&m.program, &mut m.heap, &m.literals, &mut m.texts, fuel, &mut out).unwrap().stop
}

fn collect(m: &mut Memories) -> u32 {
    plain::collect(&m.program, &mut m.heap, &m.literals, &m.texts).unwrap().frames
}

fn look(m: &Memories, path: &str) -> Result<Found, Refusal> {
    let found = plain::look(&m.program, &m.heap, &m.literals, &m.texts, path.as_bytes());
    #[cfg(feature = "machine")]
    assert_eq!(framed::machine::look(&m.program, &m.heap, &m.literals, &m.texts, path.as_bytes()), found, "{path}");
    found
}

/// The counts; where the memories are not whole, the counts that were lent stay.
fn makers(m: &Memories) -> Result<[u32; MAKERS], Refusal> {
    let mut counts = [77; MAKERS];
    let counted = plain::makers(&m.program, &m.heap, &m.literals, &m.texts, &mut counts);
    #[cfg(feature = "machine")]
    {
        let mut proved = [77; MAKERS];
        assert_eq!(framed::machine::makers(&m.program, &m.heap, &m.literals, &m.texts, &mut proved), counted);
        assert!(proved == counts);
    }
    if counted.is_err() {
        assert!(counts == [77; MAKERS]);
    }
    counted.map(|()| counts)
}

// ---- The words of a frame, by docs/LAYOUT.md

fn frame(f: usize) -> usize {
    128 + 51 * f
}

fn in_use(m: &Memories, f: usize) -> bool {
    m.heap[frame(f)] == 1
}

fn maker(m: &Memories, f: usize) -> u32 {
    m.heap[frame(f) + 2]
}

/// The slots of a frame: name, tag and number of each.
fn slots(m: &Memories, f: usize) -> impl Iterator<Item = &[u32]> {
    let count = m.heap[frame(f) + 1] as usize;
    m.heap[frame(f) + 3..][..3 * count].chunks_exact(3)
}

/// The counts, found slowly: a frame is reached where self or program is it, or a slot of a frame that is reached.
fn slow_makers(m: &Memories) -> [u32; MAKERS] {
    let mut reached = [false; 256];
    for root in [0, 2] {
        if m.heap[root] == 4 {
            reached[m.heap[root + 1] as usize] = true;
        }
    }
    for _ in 0..256 {
        for f in (0..256).filter(|&f| reached[f]).collect::<Vec<_>>() {
            for slot in slots(m, f).filter(|slot| slot[1] == 4) {
                reached[slot[2] as usize] = true;
            }
        }
    }
    let mut counts = [0; MAKERS];
    (0..256).filter(|&f| reached[f]).for_each(|f| counts[maker(m, f) as usize] += 1);
    counts
}

/// The counts are those found slowly, and those of all frames in use after a collect, which reach the same totals.
fn check_counts(m: &Memories) {
    let counts = makers(m).unwrap();
    assert!(counts == slow_makers(m));
    let mut collected = m.clone();
    assert_eq!(collect(&mut collected), counts.iter().sum());
    let mut in_use_counts = [0; MAKERS];
    (0..256).filter(|&f| in_use(&collected, f)).for_each(|f| in_use_counts[maker(&collected, f) as usize] += 1);
    assert!(counts == in_use_counts);
    assert!(makers(&collected) == Ok(counts));
}

/// Looks of a source after a run to its end.
fn looks(source: &str, frames: u32, found: &[(&str, Found)]) -> Memories {
    let mut m = load(source.as_bytes(), frames, 256).unwrap();
    run(&mut m, 1_000);
    for &(path, found) in found {
        assert_eq!(look(&m, path), Ok(found), "{path} of {source}");
    }
    check_counts(&m);
    m
}

fn start(code: &str) -> String {
    format!("frame: [ Main := frame: [ start := code {{ {code} }} ] ]")
}

/// An instruction counts before those in the codes that it holds, and all its frame literals are its own.
#[test]
fn instructions_are_counted_by_where_they_begin() {
    use Found::Frame;
    let code = "self.c := code { self.z := frame: [ in := frame: [] ]; }; self.x := frame: []; jump self.c self;";
    let found = [
        ("self", Frame(0)),
        ("^", Frame(0)),
        ("^.Main", Frame(0)),
        ("self.x", Frame(3)),
        ("self.z", Frame(2)),
        ("self.z.in", Frame(2)),
    ];
    let m = looks(&start(code), 256, &found);
    assert_eq!(makers(&m).unwrap()[..5], [3, 0, 2, 1, 0]);
    // over all codes of the source, those that never run too
    let source = "frame: [ first := code { show 1; self.n := frame: []; }, Main := frame: [ a := frame: [],
        start := code { self.a := frame: [ b := ^.a ]; self.d := self.a; jump ^.^.last self; } ],
        last := code { self.c := frame: []; } ]";
    let found = [
        ("self.a", Frame(3)),
        ("self.d", Frame(3)),
        ("self.a.b", Frame(0)),
        ("self.c", Frame(6)),
        ("^.Main.start", Found::Code),
    ];
    let m = looks(source, 256, &found);
    assert_eq!(makers(&m).unwrap()[..7], [4, 0, 0, 1, 0, 0, 1]);
}

/// A frame keeps its maker when it is stored, gets slots, becomes self or program, or is kept by a collection; a number that
/// is taken again takes its new maker.
#[test]
fn makers_stay() {
    use Found::Frame;
    let code = "self := frame: [ up := self ]; self.x := 1; self.up.y := self; ^.^ := self; self := self.up;";
    looks(&start(code), 256, &[("self", Frame(0)), ("self.y", Frame(1)), ("^", Frame(1)), ("^.up", Frame(0))]);
    let code = "self.a := frame: []; self.a := 0; self.b := frame: []; self.b := 0; self.c := frame: []; show 1;";
    let m = looks(&start(code), 4, &[("self.c", Frame(5))]);
    assert_eq!(makers(&m).unwrap()[..7], [3, 0, 0, 0, 0, 1, 0]);
}

/// What fills the memory: the end 36 leaves the counts as they were before the instruction.
#[test]
fn full() {
    let source = "frame: [ Main := frame: [ start := code { self.list := 0; jump ^.more self; },
        more := code { self.list := frame: [ next := self.list, twin := frame: [] ]; self.x := frame: [];
            jump ^.more self; } ] ]";
    let mut m = load(source.as_bytes(), 40, 0).unwrap();
    assert!(matches!(run(&mut m, 10_000), Stop::End(framed::End::FramesFull)));
    // 18 links, each with its twin, and what stands in x
    assert_eq!(makers(&m).unwrap()[..5], [3, 0, 0, 36, 1]);
    check_counts(&m);
}

/// A source in which each frame literal has a slot `m` with the number that its frames are to have: that of the innermost
/// instruction around it.
fn numbered(source: &str) -> Option<String> {
    let instructions = places(source.as_bytes(), 256).ok()?.instructions;
    assert!(instructions.is_sorted_by(|a, b| a.start < b.start));
    let literal = "frame: [";
    let mut numbered = source.to_owned();
    for (at, _) in source.rmatch_indices(literal) {
        // it stands in a code literal of an instruction, or not
        let number = instructions.iter().rposition(|range| range.contains(&at)).map_or(0, |i| i + 1);
        numbered.insert_str(at + literal.len(), &format!(" m := {number},"));
    }
    Some(numbered)
}

/// The number of a name.
fn name(m: &Memories, bytes: &[u8]) -> Option<u32> {
    (0..m.program[2]).find(|&k| {
        let at = 64 + 17 * k as usize;
        let length = m.program[at] as usize;
        m.program[at + 1..][..length].iter().copied().eq(bytes.iter().map(|&byte| u32::from(byte)))
    })
}

/// Every frame in use has the maker that its slot `m` says; the one without such a slot is the first self, of loading.
#[test]
fn generated_frames_say_their_makers() {
    let mut random = Random(31);
    let (mut made, mut most) = (0, 0);
    for _ in 0..rounds(300) {
        let Some(source) = numbered(&Writer::source(&mut random)) else { continue };
        let frames = random.pick(&[8, 12, 40, 256]);
        let Ok(mut m) = load(source.as_bytes(), frames, random.pick(&[1, 256])) else { continue };
        let m_name = name(&m, b"m").unwrap();
        for _ in 0..6 {
            run(&mut m, random.pick(&[1, 7, 60, 400]));
            if random.one_in(3) {
                collect(&mut m);
            }
            for f in (0..256).filter(|&f| in_use(&m, f)) {
                let said = slots(&m, f).find(|slot| slot[0] == m_name).map_or(0, |slot| slot[2]);
                assert_eq!(maker(&m, f), said, "frame {f} of {source}");
                made += u32::from(said > 0);
                most = most.max(said);
            }
            check_counts(&m);
        }
    }
    println!("{made} frames made by steps, the last maker is {most}");
    assert!(made > 1_000 && most > 20);
}

/// Stored sources, step by step: a frame keeps its maker, or it was made by the instruction that was stepped.
#[test]
fn stored_steps() {
    for source in stored_sources() {
        let Ok(mut m) = load(&source, 256, 256) else { continue };
        for f in 0..256 {
            assert!(!in_use(&m, f) || maker(&m, f) == 0);
        }
        for _ in 0..40 {
            let (before, position) = (m.clone(), m.heap[4]);
            run(&mut m, 1);
            for f in (0..256).filter(|&f| in_use(&m, f)) {
                let kept = in_use(&before, f) && maker(&before, f) == maker(&m, f);
                assert!(kept || maker(&m, f) == position);
            }
        }
        check_counts(&m);
    }
}

/// Every call but load, on copies; all are refused (20) and change nothing, or none is. Whether they are.
fn refused(m: &Memories) -> bool {
    let mut answers = vec![
        look(m, "self").err(),
        makers(m).err(),
        plain::write(&m.program, &m.heap, &m.literals, &m.texts, &mut [0; 40_000]).err(),
    ];
    let (mut ran, mut collected) = (m.clone(), m.clone());
    answers.push(plain::run(&m.program, &mut ran.heap, &m.literals, &mut ran.texts, 9, &mut [0; 9]).err());
    answers.push(plain::collect(&m.program, &mut collected.heap, &m.literals, &m.texts).err());
    #[cfg(feature = "machine")]
    {
        use framed::machine;
        let (mut proved_ran, mut proved_collected) = (m.clone(), m.clone());
        answers.push(machine::write(&m.program, &m.heap, &m.literals, &m.texts, &mut [0; 40_000]).err());
        let (heap, texts) = (&mut proved_ran.heap, &mut proved_ran.texts);
        answers.push(machine::run(&m.program, heap, &m.literals, texts, 9, &mut [0; 9]).err());
        answers.push(machine::collect(&m.program, &mut proved_collected.heap, &m.literals, &m.texts).err());
        assert!(proved_ran == ran && proved_collected == collected);
    }
    let refused = answers[0] == Some(Refusal(20));
    assert!(answers.iter().all(|&answer| answer == refused.then_some(Refusal(20))), "{answers:?}");
    assert!(!refused || ran == *m && collected == *m);
    assert_eq!(refused, !plain::is_whole(&m.program, &m.heap, &m.literals, &m.texts));
    refused
}

/// A maker is 0 or that of an instruction of the program, in frames in use; of the others it is not looked at.
#[test]
fn damaged_makers() {
    let source = start("self.a := frame: [ b := frame: [] ]; self.a := frame: []; self.c := frame: []; jump ^.start 5;");
    let mut m = load(source.as_bytes(), 40, 0).unwrap();
    run(&mut m, 3);
    let instructions = m.program[5];
    assert_eq!(instructions, 4);
    let (used, unused): (Vec<_>, Vec<_>) = (0..256).partition(|&f| in_use(&m, f));
    // two of them are garbage
    assert_eq!((used.len(), makers(&m).unwrap().iter().sum()), (7, 5));
    let sound = m.clone();
    for f in used {
        for maker in (0..=instructions).chain([instructions + 1, 512, 513, 1 << 16, u32::MAX]) {
            m.heap[frame(f) + 2] = maker;
            assert_eq!(refused(&m), maker > instructions, "frame {f}, maker {maker}");
            if maker <= instructions {
                check_counts(&m);
            }
        }
        m = sound.clone();
    }
    for f in unused {
        for maker in [0, instructions, instructions + 1, 513, u32::MAX] {
            m.heap[frame(f) + 2] = maker;
            assert!(!refused(&m), "frame {f}, maker {maker}");
        }
    }
    assert!(makers(&m) == makers(&sound));
    // a frame that is taken into use gets its own
    run(&mut m, 3);
    assert!(!refused(&m));
}

/// The largest number of instructions, and the last of them as a maker.
#[test]
fn last_instruction() {
    let m = looks(&start(&format!("{}self.a := frame: [];", "show 1; ".repeat(511))), 4, &[]);
    assert_eq!((look(&m, "self.a"), makers(&m).unwrap()[512]), (Ok(Found::Frame(512)), 1));
    let mut other = m.clone();
    other.heap[frame(3) + 2] = 513;
    assert!(!refused(&m) && refused(&other));
}

/// Memories of other lengths, cleared ones, and roots that are no frames.
#[test]
fn other_memories() {
    assert_eq!(makers(&Memories::new()).err(), Some(Refusal(20)));
    let mut m = load(start("self.a := frame: []; ^.^ := 5; self := 5;").as_bytes(), 9, 0).unwrap();
    let mut random = Random(32);
    for _ in 0..rounds(40) {
        assert_eq!(makers(&common::other_length(&m, &mut random)).err(), Some(Refusal(20)));
    }
    run(&mut m, 9);
    assert!(makers(&m) == Ok([0; MAKERS]));
    check_counts(&m);
}
