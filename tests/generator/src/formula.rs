//! Tables as requests lend them, each part of which may be at fault.

use crate::ceiling;
use crate::damage::damage;
use crate::parts::of_parts;
use crate::random::Random;
use crate::table::{bytes, constants, node_count, reached, right, Node, MOST_NODES};

/// A table with its option count. The nodes are what it was made of, before any fault of length.
pub struct Formula {
    pub nodes: Vec<Node>,
    pub table: Vec<u8>,
    pub options: u32,
}

impl Formula {
    /// Makes one of the symbols another number, where there is a symbol.
    pub fn rename_symbol(&mut self, random: &mut Random, symbol: u16) {
        let symbols: Vec<usize> = (0..self.nodes.len())
            .filter(|&number| self.nodes[number].kind == 2)
            .collect();
        if !symbols.is_empty() {
            self.nodes[random.pick(&symbols)].a = symbol;
            self.table = bytes(&self.nodes);
        }
    }
}

pub fn right_formula(random: &mut Random, count: usize) -> Formula {
    let options = option_count(random);
    let nodes = right(random, options, count);
    from_nodes(nodes, options)
}

pub fn option_count(random: &mut Random) -> u32 {
    let some = random.between(1, 32_000) as u32;
    let few = random.between(2, 20) as u32;
    random.pick(&[0, 1, few, few, few, few, few, some, some, 32_000])
}

fn from_nodes(nodes: Vec<Node>, options: u32) -> Formula {
    let table = bytes(&nodes);
    Formula {
        nodes,
        table,
        options,
    }
}

/// A formula of any size. Faults are drawn apart from each other, so that several meet in one request.
pub fn any_formula(random: &mut Random) -> Formula {
    let count = node_count(random);
    let formula = right_formula(random, count);
    damaged(random, formula)
}

/// A formula that is mostly right, and mostly small.
pub fn small_formula(random: &mut Random) -> Formula {
    let options = random.between(1, 6) as u32;
    let small = random.between(1, 24);
    let middle = random.between(20, 120);
    let formula = match random.below(1_000) {
        0 => right_formula(random, MOST_NODES),
        1..=19 => right_formula(random, middle),
        20..=119 => right_formula(random, small),
        120..=299 => from_nodes(right(random, options, small), options),
        300..=699 => {
            let leaves = random.pick(&[1, 2, 3, 4, 6, 8, 12, 16]);
            from_nodes(reached(random, options, leaves), options)
        }
        700..=849 => from_nodes(constants(random, options, small), options),
        850..=969 => from_nodes(ceiling::near(random), options),
        _ => many_parts(random),
    };
    match random.below(100) {
        0..=7 => damaged(random, formula),
        8..=17 => with_damaged_records(random, formula),
        _ => formula,
    }
}

/// A small right formula of a project with so many options.
pub fn over_options(random: &mut Random, options: u32) -> Formula {
    let small = random.between(1, 24);
    let leaves = random.pick(&[1, 2, 3, 4, 6, 8]);
    match random.percent(70) {
        true => from_nodes(reached(random, options, leaves), options),
        false => from_nodes(right(random, options, small), options),
    }
}

/// A right formula whose root reaches all of its nodes, which are many.
pub fn many_reached(random: &mut Random) -> Formula {
    let options = random.between(1, 60) as u32;
    let leaves = random.between(20, 250);
    from_nodes(reached(random, options, leaves), options)
}

/// A right formula of many parts, of which one pass of choosing mostly leaves too many clauses.
pub fn many_parts(random: &mut Random) -> Formula {
    let (nodes, options) = of_parts(random);
    from_nodes(nodes, options)
}

/// A formula in which one record or several are damaged.
pub fn with_damaged_records(random: &mut Random, mut formula: Formula) -> Formula {
    damage(random, formula.options, &mut formula.nodes);
    formula.table = bytes(&formula.nodes);
    formula
}

fn damaged(random: &mut Random, mut formula: Formula) -> Formula {
    let right_options = formula.options;
    if random.percent(40) {
        formula = with_damaged_records(random, formula);
    }
    if random.percent(10) {
        formula.table = wrong_length(random, right_options, &formula.nodes);
    }
    if random.percent(7) {
        formula.options = too_many_options(random, right_options);
    }
    formula
}

/// An option count over 32,000.
fn too_many_options(random: &mut Random, options: u32) -> u32 {
    random.pick(&[
        32_001,
        32_001,
        65_535,
        65_536,
        65_536 + options,
        2_147_483_648,
        u32::MAX,
    ])
}

/// The bytes of a table that is empty, no whole number of nodes, or too long.
fn wrong_length(random: &mut Random, options: u32, nodes: &[Node]) -> Vec<u8> {
    let mut table = bytes(nodes);
    let odd = random.between(1, 4);
    match random.below(20) {
        0..=7 => table.clear(),
        8..=11 => table.truncate(table.len() - odd),
        12..=15 => table.extend(vec![0; odd]),
        16 => table = [bytes(&right(random, options, MOST_NODES)), vec![0; odd]].concat(),
        17 | 18 => table = bytes(&right(random, options, MOST_NODES + 1)),
        _ => {
            let count = random.between(MOST_NODES + 2, 4 * MOST_NODES);
            table = bytes(&right(random, options, count));
        }
    }
    table
}
