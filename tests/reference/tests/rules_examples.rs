//! The examples of the rules, by their numbers.

use reference::choose::choose;
use reference::convert::{clause_bytes, each_clause, measure, room};
use reference::program::printed;
use reference::table::{check, Node};
use reference::totals::Size;
use Node::*;

fn clauses(nodes: &[Node], options: u32, renamed: &[bool]) -> Vec<Vec<i32>> {
    let mut all = vec![];
    each_clause(nodes, options, renamed, |clause| all.push(clause.to_vec()));
    all
}

fn plain(nodes: &[Node], options: u32) -> Vec<Vec<i32>> {
    clauses(nodes, options, &vec![false; nodes.len()])
}

/// Clauses and literals under the set of these nodes.
fn size(nodes: &[Node], renamed: &[usize]) -> (u64, u64) {
    let Size { clauses, literals } = measure(nodes, &set(nodes, renamed));
    (clauses, literals)
}

fn set(nodes: &[Node], renamed: &[usize]) -> Vec<bool> {
    (0..nodes.len())
        .map(|node| renamed.contains(&node))
        .collect()
}

fn refused(nodes: &[Node]) -> Option<u32> {
    let renamed = vec![false; nodes.len()];
    let bytes = clause_bytes(nodes, 1, &renamed, usize::MAX);
    bytes.err().map(|refusal| refusal.number)
}

/// Adds a node over the last one with itself.
fn twice(nodes: &mut Vec<Node>, node: fn(usize, usize) -> Node) {
    let last = nodes.len() - 1;
    nodes.push(node(last, last));
}

fn conjunctions() -> Vec<Node> {
    let mut nodes: Vec<Node> = (1..=6).map(Symbol).collect();
    nodes.extend([And(0, 1), And(2, 3), Or(6, 7), And(4, 5), Or(8, 9)]);
    nodes
}

#[test]
fn example_1_a_symbol() {
    assert_eq!(plain(&[Symbol(1)], 1), [[1]]);
    let (bytes, values) = clause_bytes(&[Symbol(1)], 1, &[false], 8).unwrap();
    assert_eq!((bytes.len(), values), (8, [1, 1]));
}

#[test]
fn examples_2_to_4_constants() {
    assert_eq!(plain(&[True], 0), Vec::<Vec<i32>>::new());
    assert_eq!(clause_bytes(&[True], 0, &[false], 0), Ok((vec![], [0, 0])));
    assert_eq!(plain(&[False], 0), [vec![]]);
    assert_eq!(
        clause_bytes(&[False], 0, &[false], 4),
        Ok((vec![0; 4], [0, 1]))
    );
    assert_eq!(plain(&[True, Not(0)], 0), [vec![]]);
}

#[test]
fn example_5_an_implication() {
    let nodes = [Symbol(1), Symbol(2), Symbol(3), And(1, 2), Implies(0, 3)];
    assert_eq!(plain(&nodes, 3), [[-1, 2], [-1, 3]]);
}

#[test]
fn example_6_a_negated_equivalence() {
    let nodes = [Symbol(1), Symbol(2), Equivalent(0, 1), Not(2)];
    assert_eq!(plain(&nodes, 2), [[-1, -2], [1, 2]]);
}

#[test]
fn example_7_a_shared_equivalence() {
    let nodes = [Symbol(1), Symbol(2), Equivalent(0, 1), Equivalent(2, 2)];
    assert_eq!(size(&nodes, &[]), (8, 32));
    assert_eq!(size(&nodes, &[2]), (6, 16));
}

#[test]
fn example_8_a_renamed_conjunction() {
    let nodes = [Symbol(1), Symbol(2), And(0, 1), Not(2)];
    assert_eq!(
        clauses(&nodes, 2, &set(&nodes, &[2])),
        [vec![-3], vec![-1, -2, 3]]
    );
}

#[test]
fn example_9_three_conjunctions() {
    let nodes = conjunctions();
    assert_eq!(size(&nodes, &[]), (8, 24));
    let choice = choose(&nodes, 11);
    assert_eq!(
        (choice.set, choice.picks, choice.total),
        (set(&nodes, &[9]), 1, 6)
    );
    assert_eq!(size(&nodes, &[9]), (6, 16));
    let none = choose(&nodes, 0);
    assert_eq!((none.set, none.picks, none.total), (set(&nodes, &[]), 0, 8));
}

#[test]
fn example_10_one_long_clause() {
    let mut nodes = vec![Symbol(1)];
    for _ in 0..19 {
        twice(&mut nodes, Or);
    }
    assert_eq!(size(&nodes, &[]), (1, 524_288));
    assert_eq!(plain(&nodes, 1), [vec![1; 524_288]]);
    assert_eq!(refused(&nodes), None);
    twice(&mut nodes, Or);
    assert_eq!(refused(&nodes), Some(6));
}

#[test]
fn example_11_many_clauses() {
    let mut nodes = vec![Symbol(1)];
    for _ in 0..14 {
        twice(&mut nodes, And);
        nodes.push(And(nodes.len() - 1, 0));
    }
    assert_eq!(size(&nodes, &[]).0, 32_767);
    assert_eq!(refused(&nodes), None);
    twice(&mut nodes, And);
    assert_eq!(size(&nodes, &[]), (65_534, 65_534));
    assert_eq!(plain(&nodes, 1), vec![[1]; 65_534]);
    nodes.push(And(nodes.len() - 1, 0));
    assert_eq!(refused(&nodes), Some(5));
}

#[test]
fn example_12_limits() {
    let one = [1, 0, 0, 0, 0];
    let number = |table: &[u8], options| check(table, options).err().map(|refusal| refusal.number);
    assert_eq!(number(&one.repeat(1_024), 0), None);
    assert_eq!(number(&one.repeat(1_025), 0), Some(1));
    assert_eq!(number(&one, 32_000), None);
    assert_eq!(number(&one, 32_001), Some(2));
    assert_eq!(number(&[], 32_001), Some(1));
}

#[test]
fn example_13_the_program() {
    let input = "options|2\n0|2|1|0\n1|2|2|0\n2|7|0|1\n3|7|2|2\n".replace('|', "\t");
    let output = "p cnf 3 6\n-3 3 0\n-3 3 0\n-3 -1 2 0\n-3 -2 1 0\n-1 -2 3 0\n1 2 3 0\n";
    assert_eq!(
        String::from_utf8(printed(input.as_bytes())).unwrap(),
        output
    );
}

#[test]
fn room_is_four_bytes_for_each_literal_and_each_zero() {
    let nodes = conjunctions();
    let needed = 4 * (8 + 24);
    assert_eq!(room(measure(&nodes, &set(&nodes, &[]))), needed as u64);
    let bytes = |lent| clause_bytes(&nodes, 6, &set(&nodes, &[]), lent);
    assert_eq!(bytes(needed).unwrap().0.len(), needed);
    assert_eq!(bytes(needed - 1).unwrap_err().number, 7);
    assert_eq!(bytes(needed + 9).unwrap().0.len(), needed);
}
