//! What the tests draw: numbers, and tables of any nodes.

// A test uses only a part of it.
#![allow(dead_code)]

use reference::table::Node;
use Node::*;

/// Numbers drawn by xorshift.
pub struct Random(pub u64);

impl Random {
    pub fn below(&mut self, end: usize) -> usize {
        self.0 ^= self.0 << 13;
        self.0 ^= self.0 >> 7;
        self.0 ^= self.0 << 17;
        (self.0 >> 11) as usize % end
    }
}

/// A table of any nodes.
pub fn table(random: &mut Random, count: usize) -> Vec<Node> {
    let shared = random.below(2) == 0;
    (0..count)
        .map(|number| {
            let child = |random: &mut Random| match shared {
                true => number - 1 - random.below(number.min(3)),
                false => random.below(number),
            };
            match random.below(if number == 0 { 3 } else { 11 }) {
                0 => False,
                1 => True,
                2 => Symbol(1 + random.below(5) as u16),
                3 | 4 => Not(child(random)),
                5 | 6 => And(child(random), child(random)),
                7 | 8 => Or(child(random), child(random)),
                9 => Implies(child(random), child(random)),
                _ => Equivalent(child(random), child(random)),
            }
        })
        .collect()
}
