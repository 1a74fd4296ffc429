//! Tables of many parts, as the guards of large projects are: mostly an or of ands. So many clauses come of them that no single
//! renaming brings them below the ceiling.

use crate::ceiling::Growing;
use crate::random::Random;
use crate::table::{Node, MOST_NODES};

/// The most nodes that one more part needs, with its join.
const LONGEST_PART: usize = 24;
/// The most nodes that are put over all parts.
const LAST_NODES: usize = 4;

struct Parts {
    growing: Growing,
    symbols: usize,
    /// Whether it is the clauses of the negations that are joined. Then the whole stands below a not.
    turned: bool,
    /// The parts so far. One may be taken again.
    parts: Vec<usize>,
    /// How many of a hundred parts are taken again.
    shared: usize,
}

impl Parts {
    fn symbol(&mut self, random: &mut Random) -> usize {
        let symbol = random.below(self.symbols);
        match random.percent(15) {
            true => self.growing.not(symbol),
            false => symbol,
        }
    }

    /// The clauses of a followed by those of b.
    fn followed(&mut self, random: &mut Random, a: usize, b: usize) -> usize {
        match (self.turned, random.percent(20)) {
            (false, _) => self.growing.followed(random, a, b),
            (true, false) => self.growing.node(5, a, b),
            (true, true) => {
                let a = self.growing.not(a);
                self.growing.node(6, a, b)
            }
        }
    }

    /// The join of the clauses of a and b.
    fn joined(&mut self, random: &mut Random, a: usize, b: usize) -> usize {
        match self.turned {
            false => self.growing.joined(random, a, b),
            true => self.growing.node(4, a, b),
        }
    }

    /// A part of two clauses or more: some symbols one after the other, an equivalence, or joins within it.
    fn part(&mut self, random: &mut Random) -> usize {
        let part = match random.below(20) {
            0 => {
                let (a, b) = (self.symbol(random), self.symbol(random));
                self.growing.node(7, a, b)
            }
            1 | 2 => {
                let (a, b) = (self.symbol(random), self.symbol(random));
                let joined = self.joined(random, a, b);
                let c = self.symbol(random);
                self.followed(random, joined, c)
            }
            _ => {
                let first = self.symbol(random);
                (0..random.pick(&[1, 1, 1, 2])).fold(first, |last, _| {
                    let symbol = self.symbol(random);
                    self.followed(random, last, symbol)
                })
            }
        };
        self.parts.push(part);
        part
    }

    fn some_part(&mut self, random: &mut Random) -> usize {
        match !self.parts.is_empty() && random.percent(self.shared) {
            true => random.pick(&self.parts),
            false => self.part(random),
        }
    }

    fn has_room(&self) -> bool {
        self.growing.nodes.len() + LONGEST_PART + LAST_NODES <= MOST_NODES
    }

    /// So many parts, as far as there is room, joined from the left. Now and then a run of them is joined by itself, and
    /// follows what is joined so far.
    fn whole(&mut self, random: &mut Random, count: usize) -> usize {
        let nested = random.pick(&[0, 0, 3]);
        let mut whole = self.some_part(random);
        let mut run: Option<usize> = None;
        for _ in 1..count {
            if !self.has_room() {
                break;
            }
            let part = self.some_part(random);
            run = match run {
                Some(run) => Some(self.joined(random, run, part)),
                None if random.percent(nested) => Some(part),
                None => {
                    whole = self.joined(random, whole, part);
                    None
                }
            };
            if random.percent(20) {
                whole = run.take().map_or(whole, |run| match random.percent(50) {
                    true => self.followed(random, whole, run),
                    false => self.joined(random, whole, run),
                });
            }
        }
        match run {
            Some(run) => self.followed(random, whole, run),
            None => whole,
        }
    }
}

/// A table of many parts, with its option count.
pub fn of_parts(random: &mut Random) -> (Vec<Node>, u32) {
    let few = random.between(20, 60);
    let many = random.between(20, 400);
    let count = random.pick(&[few, few, few, many]);
    let symbols = random.pick(&[8, count.min(200), (2 * count).min(400)]);
    let more = random.between(0, 20);
    let mut growing = Growing { nodes: vec![] };
    for symbol in 1..=symbols {
        growing.node(2, symbol, 0);
    }
    let mut parts = Parts {
        growing,
        symbols,
        turned: random.percent(25),
        parts: vec![],
        shared: random.pick(&[0, 0, 10, 40]),
    };
    let mut last = parts.whole(random, count);
    let mut growing = parts.growing;
    if parts.turned {
        last = growing.not(last);
    }
    match random.below(10) {
        0 => {
            growing.node(6, 0, last);
        }
        1 => {
            growing.node(4, last, 1);
        }
        2 => {
            growing.node(7, last, 0);
        }
        3 => {
            let constant = growing.node(random.pick(&[0, 1]), 0, 0);
            growing.node(random.between(4, 7) as u8, last, constant);
        }
        _ => {}
    }
    (growing.nodes, (symbols + more) as u32)
}

#[cfg(test)]
mod tests {
    use super::*;
    use crate::set::may_be_renamed;
    use crate::table::{bytes, tests::wrong_nodes};
    use reference::fast_choose::fast_choose;
    use reference::table;

    #[test]
    fn the_tables_are_right_and_within_the_limits() {
        let mut random = Random::new(1);
        let mut longest = 0;
        for _ in 0..2_000 {
            let (nodes, options) = of_parts(&mut random);
            assert_eq!(wrong_nodes(&nodes, options), 0);
            longest = longest.max(nodes.len());
        }
        assert!(longest <= MOST_NODES && longest > 950, "{longest}");
    }

    #[test]
    fn one_pass_often_ends_at_the_ceiling_and_the_second_never_does() {
        let mut random = Random::new(2);
        let (mut at_ceiling, mut kept, mut seven) = (0, 0, 0);
        for _ in 0..300 {
            let (nodes, options) = of_parts(&mut random);
            let all = may_be_renamed(&nodes).iter().filter(|&&may| may).count() as u32;
            let nodes = table::check(&bytes(&nodes), options).expect("a right table");
            let (one, both) = (fast_choose(&nodes, all - 1), fast_choose(&nodes, all));
            assert!(both.total < 65_535);
            if one.total == 65_535 {
                at_ceiling += 1;
                kept += usize::from(both.picks > 0);
                let equivalent = |node: &table::Node| matches!(node, table::Node::Equivalent(..));
                seven += usize::from(nodes.iter().any(equivalent));
            }
        }
        assert!(
            at_ceiling > 150 && kept > 150 && seven > 50,
            "{at_ceiling} {kept} {seven}"
        );
    }
}
