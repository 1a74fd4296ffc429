//! Tables whose totals are at or near a ceiling.

use crate::random::Random;
use crate::table::Node;

/// A table that grows. Each step gives the number of the node whose clauses it describes.
pub struct Growing {
    pub nodes: Vec<Node>,
}

impl Growing {
    pub fn node(&mut self, kind: u8, a: usize, b: usize) -> usize {
        self.nodes.push(Node {
            kind,
            a: a as u16,
            b: b as u16,
        });
        self.nodes.len() - 1
    }

    pub fn not(&mut self, a: usize) -> usize {
        self.node(3, a, 0)
    }

    /// The clauses of a followed by those of b, by any of three operators.
    pub fn followed(&mut self, random: &mut Random, a: usize, b: usize) -> usize {
        match random.below(6) {
            0 => {
                let (a, b) = (self.not(a), self.not(b));
                let or = self.node(5, a, b);
                self.not(or)
            }
            1 => {
                let b = self.not(b);
                let implies = self.node(6, a, b);
                self.not(implies)
            }
            _ => self.node(4, a, b),
        }
    }

    /// The join of the clauses of a and b, by any of three operators.
    pub fn joined(&mut self, random: &mut Random, a: usize, b: usize) -> usize {
        match random.below(6) {
            0 => {
                let (a, b) = (self.not(a), self.not(b));
                let and = self.node(4, a, b);
                self.not(and)
            }
            1 => {
                let a = self.not(a);
                self.node(6, a, b)
            }
            _ => self.node(5, a, b),
        }
    }

    /// A node put together `times` times, by doubling and adding one more.
    fn repeated(
        &mut self,
        random: &mut Random,
        one: usize,
        times: usize,
        put: fn(&mut Growing, &mut Random, usize, usize) -> usize,
    ) -> usize {
        let mut whole = one;
        let bits = usize::BITS - times.leading_zeros();
        for bit in (0..bits - 1).rev() {
            whole = put(self, random, whole, whole);
            if times >> bit & 1 == 1 {
                whole = put(self, random, whole, one);
            }
        }
        whole
    }
}

/// Each option in 1 to this number may occur.
const OPTIONS: u16 = 1;

/// A table with so many clauses of so many literals each. A clause of none is false.
fn of_size(random: &mut Random, clauses: usize, literals: usize) -> Vec<Node> {
    let mut growing = Growing { nodes: vec![] };
    let clause = match literals {
        0 => growing.node(0, 0, 0),
        _ => {
            let symbol = growing.node(2, usize::from(OPTIONS), 0);
            growing.repeated(random, symbol, literals, Growing::joined)
        }
    };
    growing.repeated(random, clause, clauses, Growing::followed);
    growing.nodes
}

/// A table near a ceiling, or a table far above it that may be joined with a constant.
pub fn near(random: &mut Random) -> Vec<Node> {
    let around = |random: &mut Random, number: usize| number + random.below(5) - 2;
    let mut nodes = match random.below(8) {
        0 | 1 => {
            let clauses = around(random, 65_535);
            let literals = random.pick(&[0, 1, 2, 3, 15, 16]);
            of_size(random, clauses, literals)
        }
        2 | 3 => {
            let literals = around(random, 1_000_000);
            of_size(random, 1, literals)
        }
        4 => {
            let clauses = random.between(2, 2_000);
            let literals = around(random, 1_000_000 / clauses);
            of_size(random, clauses, literals)
        }
        5 => {
            let clauses = random.between(2, 300);
            let literals = random.between(1, 30);
            of_size(random, clauses, literals)
        }
        _ => doubled(random),
    };
    if random.percent(25) {
        with_constant(random, &mut nodes);
    }
    nodes
}

/// A leaf, then nodes over the node before with itself, or with an earlier one.
fn doubled(random: &mut Random) -> Vec<Node> {
    let leaf = random.pick(&[0, 1, 2, 2, 2]);
    let mut growing = Growing { nodes: vec![] };
    let mut last = growing.node(leaf, usize::from(leaf == 2), 0);
    let kinds = [random.between(3, 7) as u8, random.between(4, 7) as u8];
    for _ in 0..random.between(1, 40) {
        let kind = random.pick(&kinds);
        let other = match random.percent(20) {
            true => random.between(0, last),
            false => last,
        };
        last = growing.node(kind, last, if kind == 3 { 0 } else { other });
    }
    growing.nodes
}

/// Puts the root under an operator with a constant, and that beside the symbol.
fn with_constant(random: &mut Random, nodes: &mut Vec<Node>) {
    let mut growing = Growing {
        nodes: std::mem::take(nodes),
    };
    let root = growing.nodes.len() - 1;
    let constant = growing.node(random.pick(&[0, 1]), 0, 0);
    let (a, b) = random.pick(&[(root, constant), (constant, root)]);
    let over = growing.node(random.between(4, 7) as u8, a, b);
    if random.percent(50) {
        growing.node(random.between(4, 7) as u8, over, 0);
    }
    *nodes = growing.nodes;
}

#[cfg(test)]
mod tests {
    use super::*;
    use crate::table::{bytes, MOST_NODES};
    use reference::{convert, table};

    fn size(nodes: &[Node]) -> (u64, u64) {
        let nodes = table::check(&bytes(nodes), 1).expect("a right table");
        let size = convert::measure(&nodes, &vec![false; nodes.len()]);
        (size.clauses, size.literals)
    }

    #[test]
    fn a_table_has_the_size_that_is_asked() {
        let mut random = Random::new(1);
        for (clauses, literals) in [
            (1, 1),
            (65_535, 1),
            (65_534, 0),
            (1, 999_999),
            (7, 13),
            (65_534, 15),
        ] {
            let nodes = of_size(&mut random, clauses, literals);
            let expected = (clauses as u64, (clauses * literals) as u64);
            assert_eq!(size(&nodes), expected);
        }
    }

    #[test]
    fn both_ceilings_are_met_exactly_and_by_one() {
        let mut random = Random::new(2);
        let sizes: Vec<(u64, u64)> = (0..3_000).map(|_| size(&near(&mut random))).collect();
        for clauses in [65_534, 65_535, 65_536] {
            assert!(sizes.iter().any(|size| size.0 == clauses), "{clauses}");
        }
        for literals in [999_999, 1_000_000, 1_000_001] {
            assert!(sizes.iter().any(|size| size.1 == literals), "{literals}");
        }
        assert!(sizes.iter().any(|size| size.0 > 1 << 40));
        assert!(sizes.contains(&(0, 0)));
    }

    #[test]
    fn the_tables_are_within_the_limits() {
        let mut random = Random::new(3);
        assert!((0..2_000).all(|_| near(&mut random).len() < MOST_NODES));
    }
}
