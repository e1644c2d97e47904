//! The wrapper `Model`: copies, memories taken out and put back, and the words of refusals and ends.
#![cfg(feature = "machine")]

use framed::machine::Model;
use framed::{End, Found, Memories, Refusal, Stop};
use std::error::Error;

const COUNTING: &str = "frame: [ Main := frame: [ start := code { self.n := 3; self.t := \"n\" # self.n; show self.t; jump ^.next self; },
    next := code { self.n := self.n - 1; show self.n; jump ^.next self; } ] ]";

/// What a model shows and how it stops, in runs of one step.
fn rest(model: &mut Model) -> (Vec<u8>, Stop) {
    let mut shown = Vec::new();
    let mut out = [0; 100];
    for _ in 0..50 {
        let report = model.run(1, &mut out);
        shown.extend_from_slice(&out[..report.bytes]);
        if report.stop != Stop::Fuel {
            return (shown, report.stop);
        }
    }
    (shown, Stop::Fuel)
}

#[test]
fn a_clone_is_a_saved_state() {
    let mut model = Model::load(COUNTING.as_bytes(), 10, 4).unwrap();
    model.run(6, &mut [0; 100]);
    let mut saved = model.clone();
    assert!(saved == model);
    let shown = rest(&mut model);
    assert!(saved != model);
    assert_eq!(saved.look("self.n"), Ok(Found::Integer(2)));
    assert_eq!(rest(&mut saved), shown);
}

#[test]
fn memories_out_and_back() -> Result<(), Box<dyn Error>> {
    let mut model = Model::load(COUNTING.as_bytes(), 10, 4)?;
    model.run(5, &mut [0; 100]);
    let memories = model.clone().into_memories();
    assert!(*model.memories() == memories);
    let mut again = Model::from_memories(memories).map_err(|(refusal, _)| refusal)?;
    assert_eq!(rest(&mut again), rest(&mut model));
    Ok(())
}

/// The text of a model loads as the same model, whatever was run before it was written.
#[test]
fn text_and_back() -> Result<(), Box<dyn Error>> {
    let mut model = Model::load(COUNTING.as_bytes(), 10, 4)?;
    let start = model.clone();
    model.run(7, &mut [0; 100]);
    let text = model.text()?;
    assert_eq!(text, start.text()?);
    assert!(text.starts_with(b"frame : [ Main := frame : [ start := code { self.n := 3 ; "));
    assert!(Model::load(&text, 10, 4)? == start);
    let mut out = vec![7; text.len() + 1];
    assert_eq!(model.write(&mut out), Ok(text.len()));
    assert_eq!(out, [&text[..], &[7]].concat());
    out.fill(9);
    assert_eq!(model.write(&mut out[..text.len() - 1]), Err(Refusal(23)));
    assert_eq!(out, [9].repeat(text.len() + 1));
    Ok(())
}

/// A frame has its maker, and the makers of all that are reached are counted.
#[test]
fn makers() {
    let source = "frame: [ Main := frame: [ start := code {
        self.a := frame: []; self.b := frame: [ c := frame: [] ]; } ] ]";
    let mut model = Model::load(source.as_bytes(), 10, 4).unwrap();
    assert_eq!(model.makers()[..3], [3, 0, 0]);
    model.run(9, &mut []);
    assert_eq!((model.look("self.b.c"), model.look("^.Main")), (Ok(Found::Frame(2)), Ok(Found::Frame(0))));
    assert_eq!((&model.makers()[..4], model.makers().len()), (&[3, 1, 2, 0][..], framed::MAKERS));
}

/// Memories that are not whole come back as they were.
#[test]
fn memories_that_are_not_whole() {
    let mut memories = Model::load(COUNTING.as_bytes(), 10, 4).unwrap().into_memories();
    memories.heap[5] = 38;
    for memories in [memories, Memories::new(), Memories { texts: vec![0; 3].into(), ..Memories::new() }] {
        let given = memories.clone();
        let Err((refusal, back)) = Model::from_memories(memories) else { panic!("not whole") };
        assert_eq!(refusal, Refusal(20));
        assert!(back == given);
    }
}

/// A path is text or bytes.
#[test]
fn paths() {
    let mut model = Model::load(COUNTING.as_bytes(), 10, 4).unwrap();
    model.run(3, &mut [0; 100]);
    assert_eq!(model.look("self.t"), Ok(Found::Text));
    assert_eq!(model.look(b"^.Main.next"), Ok(Found::Code));
    assert_eq!(model.look(String::from("self.none")), Err(Refusal(22)));
    assert_eq!(model.look([94, 46, 94]), Err(Refusal(21)));
    assert_eq!(model.look_text("self.t"), b"n3");
    assert_eq!(model.look_text(&b"self.n"[..]), b"");
}

#[test]
fn words() {
    let refusal = Model::load(b"frame", 10, 4).err().unwrap();
    assert_eq!(refusal.to_string(), "refused 6: the tokens are not one frame");
    let error: Box<dyn Error> = Box::new(End::from_number(32).unwrap());
    assert_eq!(error.to_string(), "end 32: divisor 0");
}
