//! Choosing a set, by the rule as it is written.

use crate::lists::Lists;
use crate::polarity::{marks, Mark};
use crate::set::may_be_renamed;
use crate::table::Node;
use crate::totals::{rows, total, CLAUSE_CEILING};

/// A chosen set, with its picks and its clause total at the ceiling.
#[derive(Clone, Debug, PartialEq, Eq)]
pub struct Choice {
    pub set: Vec<bool>,
    pub picks: u32,
    pub total: u32,
}

/// What both passes look at.
struct Table {
    lists: Lists,
    marks: Vec<Mark>,
    /// The nodes that may be renamed, from the highest down.
    may: Vec<usize>,
}

impl Table {
    fn new(nodes: &[Node]) -> Table {
        let may = may_be_renamed(nodes);
        Table {
            lists: Lists::new(nodes),
            marks: marks(nodes),
            may: (0..nodes.len()).rev().filter(|&at| may[at]).collect(),
        }
    }

    /// A choice of this set. Its total is made from nothing.
    fn choice(&self, set: Vec<bool>) -> Choice {
        let size = total(&rows(&self.lists, &set), &set, &self.marks);
        Choice {
            picks: set.iter().filter(|&&renamed| renamed).count() as u32,
            total: size.shown_clauses(),
            set,
        }
    }

    /// The same choice with one node put in or taken out.
    fn with(&self, choice: &Choice, number: usize, renamed: bool) -> Choice {
        let mut set = choice.set.clone();
        set[number] = renamed;
        self.choice(set)
    }

    /// No node is in the set at first. A node goes in where that makes the total lower.
    fn put_in(&self, allowance: u32) -> Choice {
        let mut choice = self.choice(vec![false; self.marks.len()]);
        for &number in &self.may {
            if choice.picks < allowance {
                let tried = self.with(&choice, number, true);
                if tried.total < choice.total {
                    choice = tried;
                }
            }
        }
        choice
    }

    /// All nodes that may be renamed are in the set at first. A node is taken out where that makes the total no higher.
    fn take_out(&self) -> Choice {
        let mut all = vec![false; self.marks.len()];
        for &number in &self.may {
            all[number] = true;
        }
        let mut choice = self.choice(all);
        for &number in &self.may {
            let tried = self.with(&choice, number, false);
            if tried.total <= choice.total {
                choice = tried;
            }
        }
        choice
    }
}

/// The set for an allowance. The second pass is made where the first ends at the ceiling and all nodes are allowed.
pub fn choose(nodes: &[Node], allowance: u32) -> Choice {
    let table = Table::new(nodes);
    let choice = table.put_in(allowance);
    if u64::from(choice.total) == CLAUSE_CEILING && allowance as usize >= table.may.len() {
        return table.take_out();
    }
    choice
}

/// The set with which the second pass ends, whether or not the first asks for it.
pub fn taken_out(nodes: &[Node]) -> Choice {
    Table::new(nodes).take_out()
}
