//! Polarity marks, found by walking from the root.

use crate::table::Node;

/// The polarities in which the root reaches a node.
#[derive(Clone, Copy, Debug, Default, PartialEq, Eq)]
pub struct Mark {
    pub positive: bool,
    pub negative: bool,
}

impl Mark {
    pub fn is_reached(self) -> bool {
        self.positive || self.negative
    }

    /// 0 none, 1 positive, 2 negative, 3 both.
    pub fn number(self) -> u8 {
        u8::from(self.positive) + 2 * u8::from(self.negative)
    }
}

/// Each child of a node with the polarity that it gets where the node has `positive`.
fn passed_on(node: Node, positive: bool) -> Vec<(usize, bool)> {
    match node {
        Node::False | Node::True | Node::Symbol(_) => vec![],
        Node::Not(a) => vec![(a, !positive)],
        Node::And(a, b) | Node::Or(a, b) => vec![(a, positive), (b, positive)],
        Node::Implies(a, b) => vec![(a, !positive), (b, positive)],
        Node::Equivalent(a, b) => vec![(a, true), (a, false), (b, true), (b, false)],
    }
}

/// The marks of all nodes. Each node is entered at most once in each polarity.
pub fn marks(nodes: &[Node]) -> Vec<Mark> {
    let mut marks = vec![Mark::default(); nodes.len()];
    let mut open = vec![(nodes.len() - 1, true)];
    while let Some((number, positive)) = open.pop() {
        let mark = &mut marks[number];
        let seen = if positive {
            &mut mark.positive
        } else {
            &mut mark.negative
        };
        if !*seen {
            *seen = true;
            open.extend(passed_on(nodes[number], positive));
        }
    }
    marks
}

#[cfg(test)]
mod tests {
    use super::*;

    fn numbers(nodes: &[Node]) -> Vec<u8> {
        marks(nodes).into_iter().map(Mark::number).collect()
    }

    const S: Node = Node::Symbol(1);

    #[test]
    fn the_root_is_positive() {
        assert_eq!(numbers(&[S]), [1]);
        assert_eq!(numbers(&[Node::False]), [1]);
    }

    #[test]
    fn and_and_or_pass_polarity_on() {
        assert_eq!(numbers(&[S, S, Node::And(0, 1)]), [1, 1, 1]);
        assert_eq!(numbers(&[S, S, Node::Or(0, 1), Node::Not(2)]), [2, 2, 2, 1]);
    }

    #[test]
    fn not_turns_polarity() {
        assert_eq!(numbers(&[S, Node::Not(0), Node::Not(1)]), [1, 2, 1]);
    }

    #[test]
    fn implies_turns_it_for_a_alone() {
        assert_eq!(numbers(&[S, S, Node::Implies(0, 1)]), [2, 1, 1]);
        assert_eq!(
            numbers(&[S, S, Node::Implies(1, 0), Node::Not(2)]),
            [2, 1, 2, 1]
        );
    }

    #[test]
    fn equivalence_gives_both_in_either_polarity() {
        assert_eq!(numbers(&[S, S, Node::Equivalent(0, 1)]), [3, 3, 1]);
        assert_eq!(
            numbers(&[S, S, Node::Equivalent(0, 1), Node::Not(2)]),
            [3, 3, 2, 1]
        );
    }

    #[test]
    fn both_polarities_go_all_the_way_down() {
        let nodes = [
            S,
            S,
            Node::And(0, 1),
            Node::Not(2),
            S,
            Node::Equivalent(3, 4),
        ];
        assert_eq!(numbers(&nodes), [3, 3, 3, 3, 3, 1]);
    }

    #[test]
    fn a_node_reached_both_ways_has_both() {
        assert_eq!(numbers(&[S, Node::Not(0), Node::Or(0, 1)]), [3, 1, 1]);
        assert_eq!(numbers(&[S, Node::Implies(0, 0)]), [3, 1]);
        // Node 1 is seen first as positive and later as negative, and so is what stands below it.
        assert_eq!(
            numbers(&[S, Node::Or(0, 0), Node::Not(1), Node::And(1, 2)]),
            [3, 3, 1, 1]
        );
    }

    #[test]
    fn a_node_that_the_root_does_not_reach_has_none() {
        assert_eq!(numbers(&[S, Node::Not(0), S, Node::Not(2)]), [0, 0, 2, 1]);
        assert_eq!(numbers(&[S, Node::Equivalent(0, 0), Node::True]), [0, 0, 1]);
    }

    #[test]
    fn a_thousand_shared_equivalences_are_walked_once_a_polarity() {
        let mut nodes = vec![S];
        nodes.extend((0..1_023).map(|below| Node::Equivalent(below, below)));
        let mut expected = vec![3; 1_023];
        expected.push(1);
        assert_eq!(numbers(&nodes), expected);
    }
}
