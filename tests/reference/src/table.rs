//! The formula table: its nodes, and the refusals 1, 2, 3, 12, 13 and 14.

use crate::answer::Refusal;

/// The bytes of a node.
pub const NODE_LENGTH: usize = 5;
/// The bytes of the longest table.
pub const LONGEST_TABLE: usize = 5_120;
/// The largest option count.
pub const MOST_OPTIONS: u32 = 32_000;

/// A node that keeps to the rules. Children are node numbers.
#[derive(Clone, Copy, Debug, PartialEq, Eq)]
pub enum Node {
    False,
    True,
    Symbol(u16),
    Not(usize),
    And(usize, usize),
    Or(usize, usize),
    Implies(usize, usize),
    Equivalent(usize, usize),
}

/// Reads the record of node `number`. Else the number of its refusal: 3, 12, 13 or 14, looked at in this order.
fn read_node(record: &[u8], number: usize, options: u32) -> Result<Node, u32> {
    let a = u16::from_le_bytes([record[1], record[2]]);
    let b = u16::from_le_bytes([record[3], record[4]]);
    let (left, right) = (usize::from(a), usize::from(b));
    let node = match record[0] {
        0 => Node::False,
        1 => Node::True,
        2 => Node::Symbol(a),
        3 => Node::Not(left),
        4 => Node::And(left, right),
        5 => Node::Or(left, right),
        6 => Node::Implies(left, right),
        7 => Node::Equivalent(left, right),
        _ => return Err(3),
    };
    let has_an_unused_field_set = match node {
        Node::False | Node::True => a != 0 || b != 0,
        Node::Symbol(_) | Node::Not(_) => b != 0,
        Node::And(..) | Node::Or(..) | Node::Implies(..) | Node::Equivalent(..) => false,
    };
    if has_an_unused_field_set {
        return Err(12);
    }
    let has_a_child_too_high = match node {
        Node::False | Node::True | Node::Symbol(_) => false,
        Node::Not(child) => child >= number,
        Node::And(..) | Node::Or(..) | Node::Implies(..) | Node::Equivalent(..) => {
            left >= number || right >= number
        }
    };
    if has_a_child_too_high {
        return Err(13);
    }
    match node {
        Node::Symbol(symbol) if symbol == 0 || u32::from(symbol) > options => Err(14),
        _ => Ok(node),
    }
}

/// The nodes of a table, or the first refusal: 1, then 2, then that of the lowest wrong record.
pub fn check(table: &[u8], options: u32) -> Result<Vec<Node>, Refusal> {
    if table.is_empty() || table.len() % NODE_LENGTH != 0 || table.len() > LONGEST_TABLE {
        return Err(Refusal::new(1));
    }
    if options > MOST_OPTIONS {
        return Err(Refusal::new(2));
    }
    let records = table.chunks_exact(NODE_LENGTH).enumerate();
    records
        .map(|(number, record)| {
            read_node(record, number, options).map_err(|fault| Refusal::at(fault, number))
        })
        .collect()
}

/// Looks at the highest variable in use before a guard of a project with so many options is converted. The refusal is 2.
pub fn check_taken(options: u32, taken: u32) -> Result<(), Refusal> {
    if !(options..=MOST_OPTIONS).contains(&taken) {
        return Err(Refusal::new(2));
    }
    Ok(())
}

#[cfg(test)]
pub mod tests {
    use super::*;

    /// The bytes of a table whose nodes are given as kind, a, b.
    pub fn table(nodes: &[(u8, u16, u16)]) -> Vec<u8> {
        let mut bytes = Vec::new();
        for (kind, a, b) in nodes {
            bytes.push(*kind);
            bytes.extend(a.to_le_bytes());
            bytes.extend(b.to_le_bytes());
        }
        bytes
    }

    fn refused(bytes: &[u8], options: u32) -> Option<(u32, u64)> {
        check(bytes, options)
            .err()
            .map(|refusal| (refusal.number, refusal.place))
    }

    /// A right table of node 0 a symbol, node 1 true, and node 2 as given.
    fn third(kind: u8, a: u16, b: u16) -> Option<(u32, u64)> {
        refused(&table(&[(2, 1, 0), (1, 0, 0), (kind, a, b)]), 300)
    }

    #[test]
    fn a_table_is_one_node_to_1024() {
        let one = table(&[(1, 0, 0)]);
        assert_eq!(refused(&[], 0), Some((1, 0)));
        assert_eq!(refused(&one, 0), None);
        assert_eq!(refused(&one.repeat(1_024), 0), None);
        assert_eq!(refused(&one.repeat(1_025), 0), Some((1, 0)));
        assert_eq!(refused(&one.repeat(20_000), 0), Some((1, 0)));
    }

    #[test]
    fn a_length_that_is_no_multiple_of_5_is_refused() {
        let bytes = table(&[(1, 0, 0), (1, 0, 0), (1, 0, 0)]);
        for length in 0..=15 {
            let expected = if length % 5 == 0 && length > 0 {
                None
            } else {
                Some((1, 0))
            };
            assert_eq!(refused(&bytes[..length], 0), expected, "{length} bytes");
        }
    }

    #[test]
    fn options_go_to_32000() {
        let bytes = table(&[(2, 1, 0)]);
        assert_eq!(refused(&bytes, 32_000), None);
        assert_eq!(refused(&bytes, 32_001), Some((2, 0)));
        assert_eq!(refused(&bytes, u32::MAX), Some((2, 0)));
    }

    #[test]
    fn the_length_comes_before_the_options_and_those_before_a_record() {
        assert_eq!(refused(&[], 32_001), Some((1, 0)));
        for (node, number) in [
            ((8, 0, 0), 3),
            ((1, 1, 0), 12),
            ((3, 0, 0), 13),
            ((2, 32_001, 0), 14),
        ] {
            let wrong = table(&[node]);
            assert_eq!(refused(&wrong[..4], 32_001), Some((1, 0)));
            assert_eq!(refused(&wrong, 32_001), Some((2, 0)));
            assert_eq!(refused(&wrong, 32_000), Some((number, 0)));
        }
    }

    #[test]
    fn what_is_taken_goes_from_the_options_to_32000() {
        let refused = |options, taken| check_taken(options, taken).err();
        for (options, taken) in [(0, 0), (0, 32_000), (6, 6), (6, 7), (32_000, 32_000)] {
            assert_eq!(refused(options, taken), None, "{options}, {taken}");
        }
        for (options, taken) in [
            (1, 0),
            (6, 5),
            (0, 32_001),
            (32_000, 31_999),
            (32_000, 32_001),
            (6, 65_542),
            (6, u32::MAX),
        ] {
            assert_eq!(
                refused(options, taken),
                Some(Refusal::new(2)),
                "{options}, {taken}"
            );
        }
    }

    #[test]
    fn constants_use_no_field() {
        for kind in [0, 1] {
            assert_eq!(third(kind, 0, 0), None);
            for value in [1, 256, 65_535] {
                assert_eq!(third(kind, value, 0), Some((12, 2)));
                assert_eq!(third(kind, 0, value), Some((12, 2)));
                assert_eq!(third(kind, value, value), Some((12, 2)));
            }
        }
    }

    #[test]
    fn a_symbol_is_1_to_the_option_count() {
        for (symbol, expected) in [
            (0, Some((14, 2))),
            (1, None),
            (299, None),
            (300, None),
            (301, Some((14, 2))),
            (65_535, Some((14, 2))),
        ] {
            assert_eq!(third(2, symbol, 0), expected, "symbol {symbol}");
        }
    }

    #[test]
    fn with_no_option_there_is_no_symbol() {
        for symbol in [0, 1, 65_535] {
            assert_eq!(refused(&table(&[(2, symbol, 0)]), 0), Some((14, 0)));
        }
    }

    #[test]
    fn a_symbol_with_a_set_b_is_12_whichever_symbol_it_is() {
        for symbol in [0, 1, 300, 301, 65_535] {
            for b in [1, 256, 65_535] {
                assert_eq!(third(2, symbol, b), Some((12, 2)), "symbol {symbol}, b {b}");
            }
        }
    }

    #[test]
    fn a_not_has_one_child_below_it() {
        assert_eq!(third(3, 0, 0), None);
        assert_eq!(third(3, 1, 0), None);
        for a in [2, 3, 256, 65_535] {
            assert_eq!(third(3, a, 0), Some((13, 2)), "a {a}");
        }
    }

    #[test]
    fn a_not_with_a_set_b_is_12_wherever_its_child_is() {
        for a in [0, 1, 2, 3, 256, 65_535] {
            for b in [1, 2, 256, 65_535] {
                assert_eq!(third(3, a, b), Some((12, 2)), "a {a}, b {b}");
            }
        }
    }

    #[test]
    fn the_other_kinds_have_two_children_below_them() {
        for kind in 4..=7 {
            for (a, b) in [(0, 0), (0, 1), (1, 0), (1, 1)] {
                assert_eq!(third(kind, a, b), None, "kind {kind}, a {a}, b {b}");
            }
            for (a, b) in [
                (2, 0),
                (0, 2),
                (2, 2),
                (3, 1),
                (1, 3),
                (256, 0),
                (0, 256),
                (65_535, 65_535),
            ] {
                let found = third(kind, a, b);
                assert_eq!(found, Some((13, 2)), "kind {kind}, a {a}, b {b}");
            }
        }
    }

    #[test]
    fn no_other_kind_is_right_whatever_its_fields() {
        for kind in 8..=255 {
            for (a, b) in [(0, 0), (1, 0), (0, 1), (1, 1), (2, 2), (65_535, 65_535)] {
                assert_eq!(third(kind, a, b), Some((3, 2)), "kind {kind}");
            }
        }
    }

    #[test]
    fn node_0_has_no_child() {
        for kind in 3..=7 {
            assert_eq!(refused(&table(&[(kind, 0, 0)]), 5), Some((13, 0)));
        }
    }

    /// The rule once more, as a list: of the faults that a record has, the first decides.
    fn first_fault(record: (u8, u16, u16), number: u16, options: u16) -> Option<u32> {
        let (kind, a, b) = record;
        let faults = [
            (kind > 7, 3),
            (kind <= 1 && a != 0, 12),
            (kind <= 3 && b != 0, 12),
            ((3..=7).contains(&kind) && a >= number, 13),
            ((4..=7).contains(&kind) && b >= number, 13),
            (kind == 2 && !(1..=options).contains(&a), 14),
        ];
        let found = faults.into_iter().find(|(is_there, _)| *is_there);
        found.map(|(_, fault)| fault)
    }

    /// All records with both fields at an edge of node `number` in a project with so many options.
    fn records(number: u16, options: u16) -> Vec<(u8, u16, u16)> {
        let below = number.saturating_sub(1);
        let edges = [
            0,
            1,
            below,
            number,
            number + 1,
            options,
            options + 1,
            65_535,
        ];
        let mut records = vec![];
        for kind in (0..=9).chain([255]) {
            for a in edges {
                records.extend(edges.map(|b| (kind, a, b)));
            }
        }
        records
    }

    #[test]
    fn every_record_with_fields_at_an_edge_has_its_first_fault() {
        let mut met = std::collections::BTreeMap::new();
        for (number, options) in [(0, 0), (0, 1), (1, 0), (1, 7), (2, 2), (5, 3), (9, 32_000)] {
            for record in records(number, options) {
                let mut nodes = vec![(1, 0, 0); usize::from(number)];
                nodes.push(record);
                let fault = first_fault(record, number, options);
                let expected = fault.map(|fault| (fault, u64::from(number)));
                let found = refused(&table(&nodes), options.into());
                assert_eq!(found, expected, "{record:?}, node {number}, V {options}");
                *met.entry(fault).or_insert(0) += 1;
            }
        }
        for fault in [None, Some(3), Some(12), Some(13), Some(14)] {
            assert!(met[&fault] > 20, "{fault:?}: {met:?}");
        }
    }

    #[test]
    fn the_lowest_wrong_node_decides_whatever_its_fault() {
        // Each with its refusal, as a node that is 2 or higher. Some have two faults.
        let wrong = [
            ((8, 0, 0), 3),
            ((255, 9, 9), 3),
            ((0, 1, 0), 12),
            ((2, 0, 1), 12),
            ((3, 9, 1), 12),
            ((3, 9, 0), 13),
            ((4, 0, 9), 13),
            ((7, 9, 9), 13),
            ((2, 0, 0), 14),
            ((2, 6, 0), 14),
        ];
        let right = (2, 5, 0);
        for (lower, number) in wrong {
            for (higher, _) in wrong {
                let bytes = table(&[right, right, lower, right, higher, higher, right]);
                assert_eq!(
                    refused(&bytes, 5),
                    Some((number, 2)),
                    "{lower:?} {higher:?}"
                );
            }
        }
    }

    #[test]
    fn a_node_that_the_root_does_not_reach_is_checked_too() {
        assert_eq!(refused(&table(&[(2, 9, 0), (1, 0, 0)]), 8), Some((14, 0)));
        assert_eq!(refused(&table(&[(1, 9, 0), (1, 0, 0)]), 8), Some((12, 0)));
        assert_eq!(refused(&table(&[(3, 1, 0), (1, 0, 0)]), 8), Some((13, 0)));
        assert_eq!(refused(&table(&[(8, 0, 0), (1, 0, 0)]), 8), Some((3, 0)));
    }

    #[test]
    fn fields_are_little_endian() {
        let nodes = check(&[2, 0x2c, 0x01, 0, 0, 0, 0, 0, 0, 0, 6, 1, 0, 0, 0], 300);
        assert_eq!(
            nodes,
            Ok(vec![Node::Symbol(300), Node::False, Node::Implies(1, 0)])
        );
    }
}
