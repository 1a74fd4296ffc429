//! Records damaged in their kind, in a field, or in several of these at once.

use crate::random::Random;
use crate::table::{Field, Node, MOST_NODES};

/// What is changed in a record: its kind, a and b, each alone, each with another, and all of them.
const CHANGES: [[bool; 3]; 11] = [
    [true, false, false],
    [true, false, false],
    [false, true, false],
    [false, true, false],
    [false, false, true],
    [false, false, true],
    [false, true, true],
    [false, true, true],
    [true, true, false],
    [true, false, true],
    [true, true, true],
];

/// Damages one node or several.
pub fn damage(random: &mut Random, options: u32, nodes: &mut [Node]) {
    for _ in 0..random.pick(&[1, 1, 1, 2, 3, 6]) {
        let number = some_number(random, nodes);
        damage_record(random, options, number, &mut nodes[number]);
    }
}

/// The number of a node. Its kind is drawn first, so that a kind with few nodes comes up too. Symbols come up most: one
/// fault is theirs alone.
fn some_number(random: &mut Random, nodes: &[Node]) -> usize {
    let kind = random.pick(&[0, 1, 2, 2, 2, 2, 3, 3, 4, 5, 6, 7]);
    let found: Vec<usize> = (0..nodes.len())
        .filter(|&number| nodes[number].kind == kind)
        .collect();
    match found.is_empty() {
        true => random.below(nodes.len()),
        false => random.pick(&found),
    }
}

/// Changes the record of node `number`. With another known kind it may be right; all else is wrong.
fn damage_record(random: &mut Random, options: u32, number: usize, node: &mut Node) {
    let [a, b] = node.fields();
    // The fault that only symbols have decides where a alone is wrong.
    let [changes_kind, changes_a, changes_b] = match a == Field::Symbol && random.percent(40) {
        true => [false, true, false],
        false => random.pick(&CHANGES),
    };
    if changes_kind {
        node.kind = other_kind(random, node.kind);
    }
    if changes_a {
        node.a = wrong_value(random, a, options, number);
    }
    if changes_b {
        node.b = wrong_value(random, b, options, number);
    }
}

/// A kind that is unknown, or known and another.
fn other_kind(random: &mut Random, kind: u8) -> u8 {
    let unknown = random.between(8, 255) as u8;
    let known = (kind % 8 + random.between(1, 7) as u8) % 8;
    random.pick(&[8, unknown, 255, known, known, known])
}

/// A value that a field of node `number` may not have.
fn wrong_value(random: &mut Random, field: Field, options: u32, number: usize) -> u16 {
    let most = usize::from(u16::MAX);
    let past = options as usize + 1;
    let wrong = match field {
        Field::Unused => [1, 256, random.between(1, most), most],
        Field::Symbol => [0, 0, past, random.between(past, most)],
        Field::Child => {
            // Its low byte may be that of a right child.
            let high = random.between(0, number) + MOST_NODES;
            [number, number + 1, high, random.between(number, most)]
        }
    };
    random.pick(&wrong) as u16
}

#[cfg(test)]
mod tests {
    use super::*;
    use crate::table::right;
    use crate::table::tests::wrong_nodes;
    use std::collections::BTreeSet;

    #[test]
    fn a_wrong_value_makes_its_node_wrong() {
        let mut random = Random::new(2);
        for turn in 0..2_000 {
            let options = random.pick(&[0, 5, 32_000]);
            let mut nodes = right(&mut random, options, 1 + turn % 40);
            let number = random.below(nodes.len());
            let [a, _] = nodes[number].fields();
            nodes[number].a = wrong_value(&mut random, a, options, number);
            assert_eq!(wrong_nodes(&nodes, options), 1);
        }
    }

    #[test]
    fn a_record_is_damaged_in_each_number_alone_and_in_several() {
        let mut random = Random::new(3);
        let mut met = BTreeSet::new();
        for _ in 0..500 {
            let nodes = right(&mut random, 9, 30);
            let number = some_number(&mut random, &nodes);
            let (before, mut after) = (nodes[number], nodes[number]);
            damage_record(&mut random, 9, number, &mut after);
            met.insert([
                before.kind != after.kind,
                before.a != after.a,
                before.b != after.b,
            ]);
        }
        assert_eq!(met, BTreeSet::from(CHANGES));
    }

    #[test]
    fn one_node_is_damaged_or_several() {
        let mut random = Random::new(6);
        let mut wrong: Vec<usize> = (0..500)
            .map(|_| {
                let mut nodes = right(&mut random, 9, 30);
                damage(&mut random, 9, &mut nodes);
                wrong_nodes(&nodes, 9)
            })
            .collect();
        wrong.sort_unstable();
        assert!(
            wrong[250] == 1 && wrong[400] > 1 && wrong[499] > 4,
            "{wrong:?}"
        );
    }

    #[test]
    fn nodes_of_each_kind_are_damaged() {
        let mut random = Random::new(7);
        let nodes = right(&mut random, 9, 1_024);
        let mut counts = [0; 8];
        for _ in 0..800 {
            counts[usize::from(nodes[some_number(&mut random, &nodes)].kind)] += 1;
        }
        assert!(counts.iter().all(|&count| count > 40), "{counts:?}");
    }
}
