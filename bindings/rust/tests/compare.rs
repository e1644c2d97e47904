//! The proved machine and the plain implementation, side by side: every answer, every byte of the output buffers and every
//! word and byte of the four memories must be the same after every call.
#![cfg(feature = "machine")]

mod common;

use common::blocks::Compared;
use common::{damage, damaged_source, long_source, other_length, path_text, random_bytes, rounds};
use common::{stored_sources, Random, Writer};
use framed::{machine, plain, Memories, Refusal, RunReport, MAKERS};

/// The same memories twice, one for each implementation.
struct Pair {
    plain: Memories,
    proved: Memories,
}

impl Pair {
    fn new(memories: Memories) -> Pair {
        Pair { plain: memories.clone(), proved: memories }
    }

    fn assert_same(&self, call: &str) {
        let words = |plain: &[u32], proved: &[u32], name: &str| {
            if let Some(at) = plain.iter().zip(proved).position(|(a, b)| a != b) {
                panic!("{call}: {name} word {at} is {} in plain, {} in the machine", plain[at], proved[at]);
            }
        };
        words(&self.plain.program, &self.proved.program, "program");
        words(&self.plain.heap, &self.proved.heap, "heap");
        assert_eq!(self.plain.literals, self.proved.literals, "{call}: literal bytes");
        assert_eq!(self.plain.texts, self.proved.texts, "{call}: text bytes");
    }

    fn load(&mut self, source: &[u8], frames: u32, texts: u32) -> Result<(), Refusal> {
        let (a, b) = (&mut self.plain, &mut self.proved);
        let plain =
            plain::load(source, frames, texts, &mut a.program, &mut a.heap, &mut a.literals, &mut a.texts);
        let proved =
            machine::load(source, frames, texts, &mut b.program, &mut b.heap, &mut b.literals, &mut b.texts);
        let source = String::from_utf8_lossy(source);
        assert_eq!(plain, proved, "load {frames} {texts} of {source}");
        self.assert_same(&format!("load {frames} {texts} of {source}"));
        plain
    }

    fn run(&mut self, fuel: u32, space: usize) -> Result<RunReport, Refusal> {
        let (a, b) = (&mut self.plain, &mut self.proved);
        let mut shown = vec![0xa5; space];
        let mut proved_shown = shown.clone();
        let plain = plain::run(&a.program, &mut a.heap, &a.literals, &mut a.texts, fuel, &mut shown);
        let proved = machine::run(&b.program, &mut b.heap, &b.literals, &mut b.texts, fuel, &mut proved_shown);
        assert_eq!(plain, proved, "run {fuel} {space}");
        assert_eq!(shown, proved_shown, "run {fuel} {space}");
        self.assert_same(&format!("run {fuel} {space}"));
        plain
    }

    fn collect(&mut self) {
        let (a, b) = (&mut self.plain, &mut self.proved);
        let plain = plain::collect(&a.program, &mut a.heap, &a.literals, &a.texts);
        let proved = machine::collect(&b.program, &mut b.heap, &b.literals, &b.texts);
        assert_eq!(plain, proved, "collect");
        self.assert_same("collect");
    }

    fn look(&mut self, path: &[u8]) {
        let (a, b) = (&self.plain, &self.proved);
        let text = String::from_utf8_lossy(path);
        assert_eq!(
            plain::look(&a.program, &a.heap, &a.literals, &a.texts, path),
            machine::look(&b.program, &b.heap, &b.literals, &b.texts, path),
            "look {text}"
        );
        assert_eq!(
            plain::look_text(&a.program, &a.heap, &a.literals, &a.texts, path),
            machine::look_text(&b.program, &b.heap, &b.literals, &b.texts, path),
            "look_text {text}"
        );
    }

    fn makers(&self) {
        let (a, b) = (&self.plain, &self.proved);
        let (mut counts, mut proved_counts) = ([7; MAKERS], [7; MAKERS]);
        assert_eq!(
            plain::makers(&a.program, &a.heap, &a.literals, &a.texts, &mut counts),
            machine::makers(&b.program, &b.heap, &b.literals, &b.texts, &mut proved_counts),
            "makers"
        );
        assert_eq!(counts, proved_counts, "makers");
    }

    fn write(&self, space: usize) -> Result<usize, Refusal> {
        let (a, b) = (&self.plain, &self.proved);
        let mut text = vec![0xa5; space];
        let mut proved_text = text.clone();
        let plain = plain::write(&a.program, &a.heap, &a.literals, &a.texts, &mut text);
        let proved = machine::write(&b.program, &b.heap, &b.literals, &b.texts, &mut proved_text);
        assert_eq!(plain, proved, "write {space}");
        assert!(text == proved_text, "write {space}");
        plain
    }

    /// A buffer of some length; then one of the text's, and one that is a byte shorter.
    fn writes(&self, random: &mut Random) {
        let space = random.pick(&[0, 10, 11, 60, 1_000, 4_096, 16_384, 32_767, 40_000]);
        let _ = self.write(random.below(4_000));
        if let Ok(length) = self.write(space) {
            assert_eq!((self.write(length), self.write(length - 1)), (Ok(length), Err(Refusal(23))));
        }
    }

    /// A list of calls.
    fn calls(&mut self, count: usize, random: &mut Random) {
        for _ in 0..count {
            match random.below(8) {
                0 => self.collect(),
                1 => self.look(&path_text(random)),
                2 => self.writes(random),
                3 => self.makers(),
                _ => {
                    let fuel = random.pick(&[0, 1, 2, 7, 40, 300, 5_000]);
                    let space = random.pick(&[0, 1, 4, 20, 66, 500]);
                    let _ = self.run(fuel, space);
                }
            }
        }
    }

    fn damage(&mut self, random: &mut Random) {
        damage(&mut self.plain, random);
        self.proved = self.plain.clone();
    }
}

fn limits(random: &mut Random) -> (u32, u32) {
    let frames = random.pick(&[2, 3, 4, 6, 9, 14, 40, 255, 256, 257]);
    let texts = random.pick(&[0, 1, 2, 5, 255, 256, 257]);
    (frames, texts)
}

#[test]
fn stored() {
    let mut random = Random(11);
    for source in stored_sources() {
        let mut pair = Pair::new(Memories::new());
        let _ = pair.load(&source, 256, 256);
        let _ = pair.run(100_000, 4_096);
        pair.collect();
        pair.look(b"self");
        pair.makers();
        pair.writes(&mut random);
        let (frames, texts) = limits(&mut random);
        let _ = pair.load(&source, frames, texts);
        pair.calls(4, &mut random);
    }
}

#[test]
fn generated_sources_and_lists_of_calls() {
    let mut random = Random(12);
    for _ in 0..rounds(300) {
        let source = Writer::source(&mut random);
        let mut pair = Pair::new(Memories::new());
        let (frames, texts) = limits(&mut random);
        let _ = pair.load(source.as_bytes(), frames, texts);
        pair.calls(12, &mut random);
    }
}

#[test]
fn compared_blocks_and_lists_of_calls() {
    let mut random = Random(16);
    for _ in 0..rounds(300) {
        let compared = Compared::new(&mut random);
        let mut pair = Pair::new(Memories::new());
        let (frames, texts) = limits(&mut random);
        let _ = pair.load(compared.source.as_bytes(), frames, texts);
        pair.calls(8, &mut random);
    }
}

#[test]
fn damaged_sources() {
    let mut random = Random(13);
    let stored = stored_sources();
    let mut pair = Pair::new(Memories::new());
    for round in 0..rounds(600) {
        let source = match round % 4 {
            0 => random_bytes(&mut random),
            1 => damaged_source(&stored[random.below(stored.len())], &mut random),
            2 => long_source(&mut random).into_bytes(),
            _ => damaged_source(Writer::source(&mut random).as_bytes(), &mut random),
        };
        let (frames, texts) = if random.one_in(3) { limits(&mut random) } else { (256, 256) };
        let _ = pair.load(&source, frames, texts);
        pair.calls(1, &mut random);
    }
}

#[test]
fn damaged_memories() {
    let mut random = Random(14);
    for _ in 0..rounds(150) {
        let source =
            if random.one_in(3) { Compared::new(&mut random).source } else { Writer::source(&mut random) };
        let mut pair = Pair::new(Memories::new());
        let _ = pair.load(source.as_bytes(), random.pick(&[9, 40, 256]), random.pick(&[2, 256]));
        let _ = pair.run(random.below(60) as u32, 400);
        let sound = pair.plain.clone();
        for _ in 0..8 {
            pair = Pair::new(sound.clone());
            pair.damage(&mut random);
            pair.writes(&mut random);
            pair.makers();
            pair.calls(2, &mut random);
        }
    }
}

#[test]
fn memories_of_other_lengths() {
    let mut random = Random(15);
    let source = Writer::source(&mut random);
    let mut pair = Pair::new(Memories::new());
    let _ = pair.load(source.as_bytes(), 256, 256);
    let sound = pair.plain.clone();
    for _ in 0..rounds(60) {
        let mut pair = Pair::new(other_length(&sound, &mut random));
        assert_eq!(pair.load(source.as_bytes(), 256, 256), Err(Refusal(1)));
        assert_eq!(pair.run(10, 10), Err(Refusal(20)));
        pair.collect();
        pair.look(b"self");
        pair.makers();
        assert_eq!(pair.write(random.pick(&[0, 4_096])), Err(Refusal(20)));
    }
}
