//! A lent set of renamed nodes, and refusal 4.

use crate::answer::Refusal;
use crate::polarity::marks;
use crate::table::Node;

/// For each node, whether it may be renamed.
pub fn may_be_renamed(nodes: &[Node]) -> Vec<bool> {
    let root = nodes.len() - 1;
    let reached = marks(nodes);
    let may = |(number, node): (usize, &Node)| match node {
        Node::False | Node::True | Node::Symbol(_) => false,
        _ => number != root && reached[number].is_reached(),
    };
    nodes.iter().enumerate().map(may).collect()
}

/// A set, or a buffer for one, has one byte a node. The refusal is 4.
pub fn check_length(nodes: &[Node], length: usize) -> Result<(), Refusal> {
    if length != nodes.len() {
        return Err(Refusal::at(4, nodes.len()));
    }
    Ok(())
}

/// For each node, whether the set renames it. The refusal is 4.
pub fn check(nodes: &[Node], set: &[u8]) -> Result<Vec<bool>, Refusal> {
    check_length(nodes, set.len())?;
    let may = may_be_renamed(nodes);
    let renamed = |(number, byte): (usize, &u8)| match (byte, may[number]) {
        (0, _) => Ok(false),
        (1, true) => Ok(true),
        _ => Err(Refusal::at(4, number)),
    };
    set.iter().enumerate().map(renamed).collect()
}

#[cfg(test)]
mod tests {
    use super::*;

    /// Nodes 2 and 3 may be renamed. 0 and 1 are symbols, 4 is not reached, 5 is true, 6 is the root.
    const NODES: [Node; 7] = [
        Node::Symbol(1),
        Node::Symbol(2),
        Node::And(0, 1),
        Node::Not(2),
        Node::Or(0, 3),
        Node::True,
        Node::Equivalent(3, 5),
    ];

    fn refused(set: &[u8]) -> Option<(u32, u64)> {
        check(&NODES, set)
            .err()
            .map(|refusal| (refusal.number, refusal.place))
    }

    #[test]
    fn kinds_3_to_7_may_be_renamed_where_reached_and_not_the_root() {
        assert_eq!(
            may_be_renamed(&NODES),
            [false, false, true, true, false, false, false]
        );
        let all = [
            Node::True,
            Node::Not(0),
            Node::And(1, 1),
            Node::Or(2, 2),
            Node::Implies(3, 3),
            Node::Equivalent(4, 4),
            Node::Not(5),
        ];
        assert_eq!(
            may_be_renamed(&all),
            [false, true, true, true, true, true, false]
        );
    }

    #[test]
    fn an_accepted_set_says_which_nodes_it_renames() {
        assert_eq!(check(&NODES, &[0; 7]), Ok(vec![false; 7]));
        assert_eq!(
            check(&NODES, &[0, 0, 0, 1, 0, 0, 0])
                .unwrap()
                .iter()
                .position(|&in_set| in_set),
            Some(3)
        );
        assert_eq!(refused(&[0, 0, 1, 1, 0, 0, 0]), None);
    }

    #[test]
    fn another_length_is_refused_at_the_node_count() {
        for length in [0, 1, 6, 8, 1_024] {
            assert_eq!(refused(&vec![0; length]), Some((4, 7)));
            assert_eq!(refused(&vec![2; length]), Some((4, 7)));
        }
    }

    #[test]
    fn a_node_that_may_not_be_renamed_is_refused() {
        for number in [0, 1, 4, 5, 6] {
            let mut set = [0; 7];
            set[number] = 1;
            assert_eq!(refused(&set), Some((4, number as u64)));
        }
    }

    #[test]
    fn a_byte_that_is_not_0_or_1_is_refused_on_any_node() {
        for number in 0..7 {
            for byte in [2, 3, 128, 255] {
                let mut set = [0; 7];
                set[number] = byte;
                assert_eq!(refused(&set), Some((4, number as u64)));
            }
        }
    }

    #[test]
    fn the_place_is_the_lowest_node_over_both_faults() {
        assert_eq!(refused(&[0, 1, 2, 0, 0, 0, 0]), Some((4, 1)));
        assert_eq!(refused(&[0, 0, 2, 0, 1, 0, 0]), Some((4, 2)));
        assert_eq!(refused(&[0, 0, 1, 1, 0, 9, 1]), Some((4, 5)));
    }
}
