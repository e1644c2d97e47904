//! `==` of two codes: their instruction lists agree after paths are resolved. Nothing is computed, and the state is not
//! looked at.
//!
//! In whole memories an expression is part of one whole, and a code stands in one expression. So inside two different codes
//! no expression meets itself, and two expressions meet in one pair of wholes alone. There they are compared once, also
//! where both wholes name an operand twice: the work is bounded by the pairs that there are.
use super::layout::{self, after, entry, expression_kind, instruction_kind, Literals, Program};

/// Whether two codes are equal.
pub fn same_codes(program: &Program, literals: &Literals, k: u32, m: u32) -> bool {
    k == m || Comparison { program, literals }.codes(k, m)
}

struct Comparison<'a> {
    program: &'a Program,
    literals: &'a Literals,
}

impl<'a> Comparison<'a> {
    fn codes(&self, k: u32, m: u32) -> bool {
        let (mut a, mut b) = (self.program[layout::code(k)], self.program[layout::code(m)]);
        while let (Some(i), Some(j)) = (a.checked_sub(1), b.checked_sub(1)) {
            if !self.instructions(i, j) {
                return false;
            }
            a = after(i, self.program[layout::instruction(i) + 4]);
            b = after(j, self.program[layout::instruction(j) + 4]);
        }
        a == b
    }

    fn instructions(&self, i: u32, j: u32) -> bool {
        let [kind, a, b, c, _] = entry(self.program, layout::instruction(i));
        let [other, d, e, f, _] = entry(self.program, layout::instruction(j));
        kind == other
            && match kind {
                instruction_kind::SHOW => self.expressions(a, d),
                instruction_kind::JUMP => self.operands([(a, d), (b, e)]),
                instruction_kind::IFEQ => self.operands([(a, d), (b, e), (c, f)]),
                _ => self.path(a, b) == self.path(d, e) && self.expressions(c, f),
            }
    }

    /// Operands at the same places. A pair that stood there before is not compared again.
    fn operands<const N: usize>(&self, pairs: [(u32, u32); N]) -> bool {
        (0..N).all(|n| pairs[..n].contains(&pairs[n]) || self.expressions(pairs[n].0, pairs[n].1))
    }

    fn expressions(&self, x: u32, y: u32) -> bool {
        let [kind, a, b, ..] = entry(self.program, layout::expression(x));
        let [other, c, d, ..] = entry(self.program, layout::expression(y));
        kind == other
            && match kind {
                expression_kind::INTEGER => a == c,
                expression_kind::LITERAL => self.literal(a) == self.literal(c),
                expression_kind::FROM_SELF | expression_kind::FROM_PROGRAM => self.path(a, b) == self.path(c, d),
                expression_kind::CODE => self.codes(a, c),
                expression_kind::FRAME => self.slots(after(x, a), after(y, c)),
                expression_kind::NOT => self.expressions(a, c),
                _ => self.operands([(a, c), (b, d)]),
            }
    }

    /// The slots of two frames from these places on.
    fn slots(&self, mut a: u32, mut b: u32) -> bool {
        while let (Some(x), Some(y)) = (a.checked_sub(1), b.checked_sub(1)) {
            let [.., name, next] = entry(self.program, layout::expression(x));
            let [.., other, other_next] = entry(self.program, layout::expression(y));
            if name != other || !self.expressions(x, y) {
                return false;
            }
            (a, b) = (after(x, next), after(y, other_next));
        }
        a == b
    }

    fn path(&self, first: u32, count: u32) -> &'a [u32] {
        layout::path(self.program, first, count)
    }

    fn literal(&self, k: u32) -> &'a [u8] {
        layout::literal(self.program, self.literals, k)
    }
}
