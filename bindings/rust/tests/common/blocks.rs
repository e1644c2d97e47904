//! Sources in which equal and nearly equal blocks stand in several frames and are compared with `==`, and what they show.
//! A block is a tree with resolved paths: two codes are equal exactly where their trees are, however each is written.
use super::Random;

/// A resolved path.
#[derive(Clone, PartialEq)]
struct Path {
    from_self: bool,
    names: Vec<&'static str>,
}

#[derive(Clone, PartialEq)]
enum Base {
    Integer(i32),
    Text(String),
    Path(Path),
    Code(Block),
}

#[derive(Clone, PartialEq)]
enum Expression {
    Base(Base),
    Frame(Vec<(&'static str, Expression)>),
    Not(Base),
    Operation(&'static str, [Base; 2]),
}

#[derive(Clone, PartialEq)]
enum Instruction {
    Assign(Path, Expression),
    Show(Base),
    Jump([Base; 2]),
    Branch([Base; 3]),
}

type Block = Vec<Instruction>;

const NAMES: [&str; 7] = ["a", "b", "n", "Main", "far", "deep", "n16_bytes_long__"];
const TEXTS: [&str; 5] = ["", "7", "ab", "a text", "0123456789012345678901234567890123456789012345678901234567890123"];
const INTEGERS: [i32; 6] = [0, 1, -1, 7, 65_536, i32::MIN];
const FRAMES: [&[&str]; 4] = [&[], &["Main"], &["far"], &["far", "deep"]];

// ---- Trees

fn new_path(random: &mut Random) -> Path {
    let mut names = random.pick(&FRAMES).to_vec();
    names.extend((0..random.below(3)).map(|_| random.pick(&NAMES)));
    Path { from_self: random.one_in(2), names }
}

fn new_base(depth: usize, random: &mut Random) -> Base {
    match random.below(6) {
        0 => Base::Integer(random.pick(&INTEGERS)),
        1 => Base::Text(random.pick(&TEXTS).to_string()),
        2 | 3 if depth > 0 => Base::Code(new_block(depth - 1, random)),
        _ => Base::Path(new_path(random)),
    }
}

fn new_bases<const N: usize>(depth: usize, random: &mut Random) -> [Base; N] {
    [(); N].map(|()| new_base(depth, random))
}

fn new_expression(depth: usize, random: &mut Random) -> Expression {
    match random.below(8) {
        0 | 1 if depth > 0 => {
            let slots = NAMES[..random.below(4)].iter();
            Expression::Frame(slots.map(|&name| (name, new_expression(depth - 1, random))).collect())
        }
        2 => Expression::Not(new_base(depth, random)),
        3 | 4 => Expression::Operation(random.pick(&super::OPERATORS), new_bases(depth, random)),
        _ => Expression::Base(new_base(depth, random)),
    }
}

fn new_instruction(depth: usize, random: &mut Random) -> Instruction {
    match random.below(6) {
        0 => Instruction::Show(new_base(depth, random)),
        1 => Instruction::Jump(new_bases(depth, random)),
        2 => Instruction::Branch(new_bases(depth, random)),
        _ => Instruction::Assign(new_path(random), new_expression(depth, random)),
    }
}

fn new_block(depth: usize, random: &mut Random) -> Block {
    (0..random.below(4)).map(|_| new_instruction(depth, random)).collect()
}

// ---- One change somewhere in a tree

/// Two neighbours change places, or one is changed.
fn change_one<T>(parts: &mut [T], random: &mut Random, change: impl Fn(&mut T, &mut Random)) {
    if parts.is_empty() {
        return;
    }
    let at = random.below(parts.len());
    if at > 0 && random.one_in(3) {
        parts.swap(at - 1, at);
    } else {
        change(&mut parts[at], random);
    }
}

/// One more, one less, or a change of those that are there.
fn change_list<T>(
    list: &mut Vec<T>,
    random: &mut Random,
    new: impl Fn(&mut Random) -> T,
    change: impl Fn(&mut T, &mut Random),
) {
    match random.below(6) {
        0 => list.insert(random.below(list.len() + 1), new(random)),
        1 if !list.is_empty() => drop(list.remove(random.below(list.len()))),
        _ => change_one(list, random, change),
    }
}

fn change_path(path: &mut Path, random: &mut Random) {
    if random.one_in(4) {
        path.from_self = !path.from_self;
    } else {
        let name = |random: &mut Random| random.pick(&NAMES);
        change_list(&mut path.names, random, name, |old, random| *old = name(random));
    }
}

fn change_text(text: &mut String, random: &mut Random) {
    let last = text.pop();
    match last {
        Some('a'..='z') if random.one_in(2) => text.push('_'),
        None => text.push(' '),
        _ => (),
    }
}

fn change_base(base: &mut Base, random: &mut Random) {
    match base {
        _ if random.one_in(5) => *base = new_base(1, random),
        Base::Integer(n) if random.one_in(2) => *base = Base::Text(n.to_string()),
        Base::Integer(n) => *n = n.wrapping_add(1),
        Base::Text(text) => change_text(text, random),
        Base::Path(path) => change_path(path, random),
        Base::Code(block) => change_block(block, random),
    }
}

/// A slot has a name that no other has, or another expression.
fn change_slots(slots: &mut Vec<(&'static str, Expression)>, random: &mut Random) {
    let name = random.pick(&NAMES);
    let free = slots.iter().all(|slot| slot.0 != name);
    let new = |random: &mut Random| (name, new_expression(0, random));
    if !free {
        change_one(slots, random, |slot, random| change_expression(&mut slot.1, random));
    } else {
        change_list(slots, random, new, |slot, _| slot.0 = name);
    }
}

/// Another form around the same operand.
fn other_form(expression: &Expression, random: &mut Random) -> Expression {
    match expression {
        Expression::Base(a) if random.one_in(2) => Expression::Not(a.clone()),
        Expression::Base(a) => Expression::Operation("+", [a.clone(), new_base(0, random)]),
        Expression::Operation(_, [a, _]) if random.one_in(2) => Expression::Not(a.clone()),
        Expression::Not(a) | Expression::Operation(_, [a, _]) => Expression::Base(a.clone()),
        Expression::Frame(_) => new_expression(0, random),
    }
}

fn change_expression(expression: &mut Expression, random: &mut Random) {
    match expression {
        _ if random.one_in(5) => *expression = other_form(expression, random),
        Expression::Base(base) | Expression::Not(base) => change_base(base, random),
        Expression::Frame(slots) => change_slots(slots, random),
        Expression::Operation(operator, _) if random.one_in(3) => *operator = random.pick(&super::OPERATORS),
        Expression::Operation(_, bases) => change_one(bases, random, change_base),
    }
}

/// Another instruction with the same operands.
fn other_kind(instruction: &Instruction, random: &mut Random) -> Instruction {
    let new = new_base(0, random);
    match instruction.clone() {
        Instruction::Show(a) => Instruction::Jump([a, new]),
        Instruction::Jump([a, _]) if random.one_in(2) => Instruction::Show(a),
        Instruction::Jump([a, b]) => Instruction::Branch([a, b, new]),
        Instruction::Branch([a, b, _]) => Instruction::Jump([a, b]),
        Instruction::Assign(_, Expression::Base(a)) => Instruction::Show(a),
        Instruction::Assign(..) => new_instruction(1, random),
    }
}

fn change_instruction(instruction: &mut Instruction, random: &mut Random) {
    match instruction {
        _ if random.one_in(6) => *instruction = other_kind(instruction, random),
        Instruction::Assign(path, _) if random.one_in(3) => change_path(path, random),
        Instruction::Assign(_, expression) => change_expression(expression, random),
        Instruction::Show(base) => change_base(base, random),
        Instruction::Jump(bases) => change_one(bases, random, change_base),
        Instruction::Branch(bases) => change_one(bases, random, change_base),
    }
}

fn change_block(block: &mut Block, random: &mut Random) {
    change_list(block, random, |random| new_instruction(0, random), change_instruction);
}

// ---- Text

/// Writes what stands in one frame.
struct Text<'a> {
    random: &'a mut Random,
    holder: &'static [&'static str],
    out: String,
}

impl Text<'_> {
    fn put(&mut self, text: &str) {
        self.out.push_str(text);
    }

    fn space(&mut self) {
        let space = if self.random.one_in(20) { self.random.pick(&["\n", "\t ", " // \"x\n"]) } else { " " };
        self.put(space);
    }

    /// Climbs at least to what the path shares with the holding frame, and somewhat further.
    fn path(&mut self, path: &Path) {
        let names = &path.names;
        let mut kept = 0;
        if path.from_self {
            self.put("self");
        } else {
            let shared = names.iter().zip(self.holder).take_while(|(a, b)| a == b).count();
            kept = self.random.below(shared + 1);
            self.put("^");
            self.put(&".^".repeat(self.holder.len() - kept));
        }
        names[kept..].iter().for_each(|&name| self.out.extend([".", name]));
    }

    fn integer(&mut self, n: i32) {
        let zeros = if self.random.one_in(3) { self.random.pick(&["0", "00"]) } else { "" };
        let sign = if n < 0 || n == 0 && self.random.one_in(4) { "-" } else { "" };
        self.put(&format!("{sign}{zeros}{}", n.unsigned_abs()));
    }

    fn base(&mut self, base: &Base) {
        match base {
            Base::Integer(n) => self.integer(*n),
            Base::Text(text) => self.put(&format!("\"{text}\"")),
            Base::Path(path) => self.path(path),
            Base::Code(block) => self.block(block),
        }
    }

    fn expression(&mut self, expression: &Expression) {
        match expression {
            Expression::Base(base) => self.base(base),
            Expression::Frame(slots) => self.frame(slots),
            Expression::Not(base) => {
                self.put("!");
                self.base(base);
            }
            Expression::Operation(operator, [a, b]) => {
                self.base(a);
                self.space();
                self.put(operator);
                self.space();
                self.base(b);
            }
        }
    }

    fn frame(&mut self, slots: &[(&str, Expression)]) {
        self.put("frame: [");
        for (n, (name, expression)) in slots.iter().enumerate() {
            self.put(if n == 0 { "" } else { "," });
            self.put(&format!(" {name} :="));
            self.space();
            self.expression(expression);
        }
        let last = if !slots.is_empty() && self.random.one_in(3) { ", ]" } else { " ]" };
        self.put(last);
    }

    fn word(&mut self, word: &str, bases: &[Base]) {
        self.put(word);
        for base in bases {
            self.space();
            self.base(base);
        }
    }

    fn block(&mut self, block: &[Instruction]) {
        self.put("code {");
        for instruction in block {
            self.space();
            match instruction {
                Instruction::Show(base) => self.word("show", std::slice::from_ref(base)),
                Instruction::Jump(bases) => self.word("jump", bases),
                Instruction::Branch(bases) => self.word("ifeq", bases),
                Instruction::Assign(path, expression) => {
                    self.path(path);
                    self.put(" :=");
                    self.space();
                    self.expression(expression);
                }
            }
            self.put(";");
        }
        self.put(" }");
    }
}

// ---- Programs

/// The slots that hold blocks.
const PLACES: [(&[&str], &str); 8] = [
    (FRAMES[0], "a"),
    (FRAMES[0], "b"),
    (FRAMES[1], "a"),
    (FRAMES[1], "b"),
    (FRAMES[2], "a"),
    (FRAMES[2], "b"),
    (FRAMES[3], "a"),
    (FRAMES[3], "b"),
];

/// A program that compares blocks.
pub struct Compared {
    pub source: String,
    /// What it shows: a line for each comparison.
    pub shown: String,
    /// How many comparisons of two code literals give 1, and how many give 0.
    pub equal: usize,
    pub other: usize,
}

/// Each block but the first is one of those before it, one in three with a change.
fn new_blocks(random: &mut Random) -> Vec<Block> {
    let depth = random.pick(&[1, 2, 2, 3, 4]);
    let mut blocks: Vec<Block> = vec![(0..5).map(|_| new_instruction(depth, random)).collect()];
    while blocks.len() < PLACES.len() {
        let mut block = blocks[random.below(blocks.len())].clone();
        if random.one_in(3) {
            change_block(&mut block, random);
        }
        blocks.push(block);
    }
    blocks
}

impl Compared {
    pub fn new(random: &mut Random) -> Compared {
        let blocks = new_blocks(random);
        let mut compared = Compared { source: String::new(), shown: String::new(), equal: 0, other: 0 };
        let mut start = Text { random, holder: FRAMES[1], out: String::new() };
        for _ in 0..10 {
            compared.comparison(&blocks, &mut start);
        }
        let start = start.out;
        let [program, main, far, deep] = FRAMES.map(|frame| slots(frame, &blocks, random));
        compared.source = format!(
            "frame: [ {program}far := frame: [ {far}deep := frame: [ {deep}] ],\n\
             Main := frame: [ {main}start := code {{ {start}}} ] ]"
        );
        compared
    }

    /// One comparison, and a show of what it gives.
    fn comparison(&mut self, blocks: &[Block], text: &mut Text) {
        let [k, m] = [(); 2].map(|()| text.random.below(blocks.len()));
        let (left, left_slot) = operand(k, &blocks[k], "left", text);
        let (right, right_slot) = operand(m, &blocks[m], "right", text);
        if text.random.one_in(3) {
            text.put(&format!("self.f := frame: [ r := {left} == {right} ]; show self.f.r; "));
        } else {
            text.put(&format!("self.r := {left} == {right}; show self.r; "));
        }
        let equal = blocks[k] == blocks[m];
        self.shown.push_str(if equal { "1\n" } else { "0\n" });
        if left_slot != right_slot || left_slot.is_none() {
            *(if equal { &mut self.equal } else { &mut self.other }) += 1;
        }
    }
}

/// The slots of a frame that hold blocks.
fn slots(frame: &'static [&'static str], blocks: &[Block], random: &mut Random) -> String {
    let mut text = Text { random, holder: frame, out: String::new() };
    for ((holder, name), block) in PLACES.iter().zip(blocks) {
        if *holder == frame {
            text.put(&format!("{name} := "));
            text.block(block);
            text.put(", ");
        }
    }
    text.out
}

/// Block k as an operand: the path of its slot, with k, or a literal of its own. Sometimes it is stored under a name first.
fn operand(k: usize, block: &Block, name: &str, text: &mut Text) -> (String, Option<usize>) {
    let before = text.out.len();
    let slot = (!text.random.one_in(4)).then_some(k);
    if slot.is_some() {
        let (holder, name) = PLACES[k];
        text.path(&Path { from_self: false, names: [holder, &[name]].concat() });
    } else {
        text.block(block);
    }
    let written = text.out.split_off(before);
    if text.random.one_in(5) {
        text.put(&format!("self.{name} := {written}; "));
        return (format!("self.{name}"), slot);
    }
    (written, slot)
}
