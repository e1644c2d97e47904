//! `==` of two codes, over the plain implementation and over the machine, which must give the same answer and the same
//! memories: of blocks in sources, and of codes in whole memories that no source has, at once.
mod common;

use common::blocks::Compared;
use common::{code_chain, compare_next, comparing, rounds, text, within, Built, Random};
use framed::{plain, Memories, Refusal, RunReport, Stop};
use std::time::Duration;

fn load(source: &[u8]) -> Result<Memories, Refusal> {
    let mut m = Memories::new();
    plain::load(source, 256, 256, &mut m.program, &mut m.heap, &mut m.literals, &mut m.texts)?;
    Ok(m)
}

fn run(m: &mut Memories, fuel: u32, out: &mut [u8]) -> RunReport {
    #[cfg(feature = "machine")]
    let (mut proved_m, mut proved_out) = (m.clone(), out.to_vec());
    let report = plain::run(&m.program, &mut m.heap, &m.literals, &mut m.texts, fuel, out).unwrap();
    #[cfg(feature = "machine")]
    {
        let p = &mut proved_m;
        let proved =
            framed::machine::run(&p.program, &mut p.heap, &p.literals, &mut p.texts, fuel, &mut proved_out);
        assert_eq!(proved, Ok(report));
        assert_eq!(text(&proved_out), text(out));
        assert!(proved_m == *m);
    }
    report
}

/// Equal and nearly equal blocks in several frames: what is shown is what their trees say.
#[test]
fn generated() {
    let random = &mut Random(31);
    let (mut loaded, mut equal, mut other) = (0, 0, 0);
    let total = rounds(400);
    for _ in 0..total {
        let compared = Compared::new(random);
        let Ok(mut m) = load(compared.source.as_bytes()) else { continue };
        let mut out = [0; 40];
        let report = run(&mut m, 100, &mut out);
        assert_eq!(text(&out[..report.bytes]), compared.shown, "{}", compared.source);
        assert_eq!(report.stop, Stop::Done);
        loaded += 1;
        equal += compared.equal;
        other += compared.other;
    }
    println!("{loaded} of {total} loaded; of two literals, {equal} pairs are equal and {other} are not");
    assert!(3 * loaded > 2 * total);
    assert!(3 * equal > other && 3 * other > equal);
}

// ---- Whole memories that no source has

/// What `==` gives of two codes.
fn answer(m: &mut Memories, k: u32, l: u32) -> u32 {
    compare_next(m, k, l);
    assert_eq!(run(m, 2, &mut []), RunReport { stop: Stop::Done, steps: 1, bytes: 0 });
    assert_eq!(m.heap[0], 0);
    m.heap[1]
}

/// A code of one instruction of this kind, with an expression of this kind at each place; an expression of any form is
/// assigned. As far as the kinds allow it, all have the same words.
fn of_kinds(built: &mut Built, instruction: u32, kind: u32) -> u32 {
    let outside = built.expression([0; 5]);
    let x = built.next();
    let operand = if kind < 6 { 0 } else { x + 1 };
    built.expression([kind, operand, operand, 0, 0]);
    built.expression([0; 5]);
    let code = if instruction < 2 { [instruction, 0, 0, x] } else { [instruction, x, x, x] };
    let code = built.code(code);
    built.hold(outside, code);
    code
}

/// Integer 0, literal 0 and paths without names, frames without slots and operators: each is equal to its own kind alone.
#[test]
fn kinds() {
    let bases = (0..5).flat_map(|instruction| (0..4).map(move |kind| (instruction, kind)));
    let forms = (5..16).map(|kind| (0, kind));
    let kinds: Vec<(u32, u32)> = bases.chain(forms).collect();
    let mut built = comparing(0);
    built.literal(b"");
    let [left, right] = [(); 2].map(|()| -> Vec<u32> {
        kinds.iter().map(|&(instruction, kind)| of_kinds(&mut built, instruction, kind)).collect()
    });
    let mut m = built.whole(1);
    for (n, &k) in left.iter().enumerate() {
        let answers: Vec<u32> = right.iter().map(|&l| answer(&mut m, k, l)).collect();
        let expected: Vec<u32> = (0..kinds.len()).map(|other| u32::from(other == n)).collect();
        assert_eq!(answers, expected, "{:?} with {kinds:?}", kinds[n]);
    }
}

/// The answers of the codes each way, 50 times in a second.
fn assert_answers(built: Built, [k, l]: [u32; 2], expected: bool) {
    let mut m = built.whole(1);
    let all = move || -> Vec<[u32; 3]> {
        (0..50).map(|_| [(k, l), (l, k), (k, k)].map(|(k, l)| answer(&mut m, k, l))).collect()
    };
    let mut answers = within(Duration::from_secs(1), all);
    answers.dedup();
    let expected = u32::from(expected);
    assert_eq!(answers, [[expected, expected, 1]]);
}

/// A code of one instruction, and which of its operands stands at each place. The first so many operands are codes, the
/// others are integers.
#[derive(Clone, Copy)]
struct Level {
    /// An instruction, or else an expression that is assigned.
    instruction: bool,
    kind: u32,
    places: &'static [u32],
    codes: u32,
}

const fn jump(places: &'static [u32], codes: u32) -> Level {
    Level { instruction: true, kind: 3, places, codes }
}

const fn branch(places: &'static [u32], codes: u32) -> Level {
    Level { instruction: true, kind: 4, places, codes }
}

const fn operation(kind: u32, places: &'static [u32], codes: u32) -> Level {
    Level { instruction: false, kind, places, codes }
}

impl Level {
    /// Adds the code, with operands that hold nothing yet. Gives its number and the first operand.
    fn add(&self, built: &mut Built) -> (u32, u32) {
        let first = built.next() + u32::from(!self.instruction);
        let mut words = [0; 3];
        self.places.iter().zip(&mut words).for_each(|(place, word)| *word = first + place);
        let [a, b, c] = words;
        let code = if self.instruction {
            built.code([self.kind, a, b, c])
        } else {
            let code = built.code([0, 0, 0, first - 1]);
            built.expression([self.kind, a, b, 0, 0]);
            code
        };
        for _ in 0..=self.places.iter().copied().max().unwrap() {
            built.expression([0, 1, 0, 0, 0]);
        }
        (code, first)
    }
}

/// A code whose operands are codes of the next level, and so on; the last show an integer each.
fn grow(built: &mut Built, levels: &[Level], integers: &mut impl Iterator<Item = u32>) -> u32 {
    let Some((level, inner)) = levels.split_first() else {
        let x = built.expression([0, integers.next().unwrap(), 0, 0, 0]);
        return built.code([2, x, 0, 0]);
    };
    let (code, first) = level.add(built);
    for x in first..first + level.codes {
        let inner = grow(built, inner, integers);
        built.hold(x, inner);
    }
    code
}

/// A code that stands outside code. In all that it comes to the last integer is this, the others are 7.
fn tree(built: &mut Built, levels: &[Level], last: u32) -> u32 {
    let x = built.expression([0; 5]);
    let shown: u32 = levels.iter().map(|level| level.codes).product();
    let code = grow(built, levels, &mut (1..=shown).map(|n| if n == shown { last } else { 7 }));
    built.hold(x, code);
    code
}

/// Equal codes, and two that differ in the last integer of the one or of the other.
fn assert_compared(left: &[Level], right: &[Level]) {
    for (a, b) in [(7, 7), (8, 7), (7, 8)] {
        let mut built = comparing(0);
        let codes = [(left, a), (right, b)].map(|(levels, last)| tree(&mut built, levels, last));
        assert_answers(built, codes, a == b);
    }
}

const JUMP: Level = jump(&[0, 0], 1);
const BRANCH: Level = branch(&[0, 0, 0], 1);
const EQUAL: Level = operation(13, &[0, 0], 1);

/// One code literal at each place, so deep that a comparison of each place would not end.
#[test]
fn doubled() {
    const DEPTH: usize = 60;
    let branches = [BRANCH, branch(&[0, 0, 1], 1), branch(&[0, 1, 0], 1), branch(&[1, 0, 0], 1)];
    let operations = (7..16).map(|kind| operation(kind, &[0, 0], 1));
    let levels: Vec<Level> = [JUMP].into_iter().chain(branches).chain(operations).collect();
    for &level in &levels {
        assert_compared(&[level; DEPTH], &[level; DEPTH]);
    }
    let mixed: Vec<Level> = levels.into_iter().cycle().take(DEPTH).collect();
    assert_compared(&mixed, &mixed);
}

/// A code literal at each place against one for each place.
#[test]
fn doubled_on_one_side() {
    for (shared, split, depth) in [
        (JUMP, jump(&[0, 1], 2), 5),
        (EQUAL, operation(13, &[0, 1], 2), 5),
        (BRANCH, branch(&[0, 1, 2], 3), 3),
        (branch(&[0, 0, 1], 1), branch(&[0, 1, 2], 2), 5),
        (branch(&[0, 0, 1], 2), branch(&[0, 1, 2], 3), 3),
        (branch(&[0, 1, 0], 2), branch(&[0, 0, 1], 2), 5),
    ] {
        assert_compared(&vec![shared; depth], &vec![split; depth]);
    }
    // at one level alone
    for at in [0, 20, 39] {
        let mut levels = [JUMP; 40];
        levels[at] = jump(&[0, 1], 2);
        assert_compared(&[JUMP; 40], &levels);
    }
}

/// Where the one shares, the other does not, and at the next level the other way round: as many pairs as the codes of the
/// last level on each side multiplied.
#[test]
fn most_pairs() {
    for (shared, split, depth) in
        [(JUMP, jump(&[0, 1], 2), 8), (EQUAL, operation(13, &[0, 1], 2), 8), (BRANCH, branch(&[0, 1, 2], 3), 5)]
    {
        let turns: Vec<Level> = [shared, split].into_iter().cycle().take(depth + 1).collect();
        assert_compared(&turns[..depth], &turns[1..]);
    }
}

/// Frames and codes as deep as they can be on both sides.
#[test]
fn deepest() {
    for (codes, frames, doubled) in [(1, 0, false), (1, 508, false), (2, 253, false), (63, 7, false), (63, 6, true)] {
        for last in [7, 8] {
            let mut built = comparing(0);
            let compared = [7, last].map(|integer| code_chain(&mut built, codes, frames, doubled, integer));
            assert_answers(built, compared, last == 7);
        }
    }
}

/// A code and one inside it, so that both go down the same chain: more than 1,000 frames and codes, until the one ends.
#[test]
fn code_in_itself() {
    for (codes, frames, doubled, inner) in
        [(127, 7, false, 1), (127, 7, false, 64), (2, 507, false, 1), (127, 0, false, 1), (127, 6, true, 1)]
    {
        let mut built = comparing(0);
        let first = code_chain(&mut built, codes, frames, doubled, 7);
        assert_answers(built, [first, first + inner], false);
    }
}

/// Paths of as many names as there can be, each the same names again.
#[test]
fn longest_paths() {
    const NAMES: u32 = 2_047;
    let assignments = |built: &mut Built, last: u32| {
        let x = built.expression([0; 5]);
        let mut assigned = built.expression([3, 0, NAMES, 0, 0]);
        let code = built.code([0, 0, NAMES, assigned]);
        built.hold(x, code);
        for first in [vec![0; 48], vec![last]].concat() {
            assigned = built.expression([3, first, NAMES, 0, 0]);
            built.more([0, 0, NAMES, assigned]);
        }
        code
    };
    for last in [0, 1] {
        let mut built = comparing(0);
        let b = built.name(b"b");
        let names = [vec![0; NAMES as usize], vec![b]].concat();
        built.path(3, &names);
        let codes = [0, last].map(|last| assignments(&mut built, last));
        assert_answers(built, codes, last == 0);
    }
}
