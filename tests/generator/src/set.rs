//! Sets of renamed nodes, right and at fault.

use crate::random::Random;
use crate::table::{Node, MOST_NODES};

/// A set for the nodes. In `wrong_percent` of a hundred draws its length or one byte is at fault.
pub fn set(random: &mut Random, nodes: &[Node], wrong_percent: usize) -> Vec<u8> {
    let density = random.pick(&[0, 20, 50, 100]);
    let may = may_be_renamed(nodes);
    let mut set: Vec<u8> = may
        .iter()
        .map(|&may| u8::from(may && random.percent(density)))
        .collect();
    if !random.percent(wrong_percent) {
        return set;
    }
    let number = random.below(set.len());
    match random.below(12) {
        0 => set.clear(),
        1 => set.truncate(number),
        2 => set.push(random.pick(&[0, 1])),
        3 => set.resize(MOST_NODES, 0),
        4..=6 => set[number] = random.pick(&[2, 3, 128, 255]),
        7..=10 => set[number] = 1,
        _ => set[nodes.len() - 1] = 1,
    }
    set
}

/// For each node, whether its kind is 3 to 7, the root reaches it and it isn't the root.
pub fn may_be_renamed(nodes: &[Node]) -> Vec<bool> {
    let root = nodes.len() - 1;
    let mut reached = vec![false; nodes.len()];
    reached[root] = true;
    for number in (0..nodes.len()).rev() {
        for child in nodes[number].children() {
            if child < number && reached[number] {
                reached[child] = true;
            }
        }
    }
    let may =
        |number: usize| number != root && reached[number] && (3..=7).contains(&nodes[number].kind);
    (0..nodes.len()).map(may).collect()
}

#[cfg(test)]
mod tests {
    use super::*;

    #[test]
    fn the_root_and_unreached_nodes_may_not_be_renamed() {
        let node = |kind, a, b| Node { kind, a, b };
        let nodes = [node(1, 0, 0), node(3, 0, 0), node(3, 0, 0), node(4, 2, 0)];
        assert_eq!(may_be_renamed(&nodes), [false, false, true, false]);
    }
}
