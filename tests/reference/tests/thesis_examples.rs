//! Examples and counts of Pimenta's bachelor thesis (Universidade de Brasília, June 2016, supervised by Nalon),
//! and of an Italian lecture's conversion by distribution, brought into tables by hand.
//! A conjunction or disjunction of several parts is folded from the left.

use reference::choose::{choose, Choice};
use reference::convert::{each_clause, measure};
use reference::polarity::{marks, Mark};
use reference::table::Node;
use Node::*;

fn set(nodes: &[Node], renamed: &[usize]) -> Vec<bool> {
    (0..nodes.len())
        .map(|node| renamed.contains(&node))
        .collect()
}

/// The clauses and literals of the output under the set of these nodes.
fn size(nodes: &[Node], renamed: &[usize]) -> (u64, u64) {
    let size = measure(nodes, &set(nodes, renamed));
    (size.clauses, size.literals)
}

fn clauses(nodes: &[Node], options: u32, renamed: &[usize]) -> Vec<Vec<i32>> {
    let mut all = vec![];
    each_clause(nodes, options, &set(nodes, renamed), |clause| {
        all.push(clause.to_vec())
    });
    all
}

/// The set that is chosen at full allowance, and its total.
fn chosen(nodes: &[Node]) -> (Vec<usize>, u32) {
    let Choice { set, total, .. } = choose(nodes, 1_024);
    let picks = (0..nodes.len()).filter(|&node| set[node]).collect();
    (picks, total)
}

fn totals(nodes: &[Node], allowances: u32) -> Vec<u32> {
    (0..=allowances)
        .map(|allowance| choose(nodes, allowance).total)
        .collect()
}

/// Adds the conjunction of symbols `first` to `last` and gives its node. Symbol s must be node s - 1.
fn conjunction(nodes: &mut Vec<Node>, first: usize, last: usize) -> usize {
    let mut whole = first - 1;
    for symbol in first + 1..=last {
        nodes.push(And(whole, symbol - 1));
        whole = nodes.len() - 1;
    }
    whole
}

fn symbols(count: u16) -> Vec<Node> {
    (1..=count).map(Symbol).collect()
}

#[test]
fn example_7_polarity() {
    // (p implies q) implies not (p equivalent (r or s)).
    let mut nodes = symbols(4);
    nodes.extend([
        Implies(0, 1),
        Or(2, 3),
        Equivalent(0, 5),
        Not(6),
        Implies(4, 7),
    ]);
    let numbers: Vec<u8> = marks(&nodes).into_iter().map(Mark::number).collect();
    assert_eq!(numbers, [3, 2, 3, 3, 2, 3, 2, 1, 1]);
    assert_eq!(size(&nodes, &[]), (6, 20));
    assert_eq!(chosen(&nodes), (vec![7], 5));
    assert_eq!(
        clauses(&nodes, 4, &[7]),
        [
            vec![1, 5],
            vec![-2, 5],
            vec![-5, -1, -3],
            vec![-5, -1, -4],
            vec![-5, 1, 3, 4]
        ]
    );
}

#[test]
fn example_8_equivalence_by_polarity() {
    let nodes = [Symbol(1), Symbol(2), Equivalent(0, 1), Not(2)];
    assert_eq!(clauses(&nodes, 2, &[]), [[-1, -2], [1, 2]]);
}

#[test]
fn example_9_replacement() {
    // (p or q) implies (r and (p or q) and (p and q)).
    let mut nodes = symbols(3);
    nodes.extend([Or(0, 1), And(2, 3), And(0, 1), And(4, 5), Implies(3, 6)]);
    assert_eq!(size(&nodes, &[]), (8, 18));
    assert_eq!(size(&nodes, &[3, 5]).0, 8);
    assert_eq!(chosen(&nodes), (vec![6], 6));
}

#[test]
fn examples_10_and_11_a_shared_equivalence() {
    let nodes = [Symbol(1), Symbol(2), Equivalent(0, 1), Equivalent(2, 2)];
    assert_eq!(size(&nodes, &[]).0, 8);
    assert_eq!(chosen(&nodes), (vec![2], 6));
}

#[test]
fn example_11_with_two_nodes_of_one_shape() {
    // By shape one helper would do. Renaming goes by node, and none helps.
    let nodes = [
        Symbol(1),
        Symbol(2),
        Equivalent(0, 1),
        Equivalent(0, 1),
        Equivalent(2, 3),
    ];
    assert_eq!(size(&nodes, &[]), (8, 32));
    assert_eq!(chosen(&nodes), (vec![], 8));
}

#[test]
fn example_12_two_conjunctions_of_three() {
    let mut nodes = symbols(6);
    let left = conjunction(&mut nodes, 1, 3);
    let right = conjunction(&mut nodes, 4, 6);
    nodes.push(Or(left, right));
    assert_eq!(size(&nodes, &[]).0, 9);
    assert_eq!(size(&nodes, &[left]).0, 6);
    assert_eq!(size(&nodes, &[left, right]).0, 7);
    assert_eq!(chosen(&nodes), (vec![right], 6));
}

#[test]
fn two_conjunctions_of_m_and_n() {
    for (m, n) in [(2, 2), (2, 3), (3, 3), (4, 2), (2, 100)] {
        let mut nodes = symbols((m + n) as u16);
        let left = conjunction(&mut nodes, 1, m);
        let right = conjunction(&mut nodes, m + 1, m + n);
        nodes.push(Or(left, right));
        let clauses = |renamed: &[usize]| size(&nodes, renamed).0 as usize;
        assert_eq!(clauses(&[]), m * n);
        assert_eq!(clauses(&[left]), m + n);
        assert_eq!(clauses(&[right]), m + n);
        assert_eq!(clauses(&[left, right]), 1 + m + n);
    }
}

#[test]
fn the_counterexample_to_the_first_claim() {
    // (x1 or x2) and (x3 or x4), conjunctions of 4, 2, 2 and 100 symbols.
    let mut nodes = symbols(108);
    let x1 = conjunction(&mut nodes, 1, 4);
    let x2 = conjunction(&mut nodes, 5, 6);
    nodes.push(Or(x1, x2));
    let left = nodes.len() - 1;
    let x3 = conjunction(&mut nodes, 7, 8);
    let x4 = conjunction(&mut nodes, 9, 108);
    nodes.push(Or(x3, x4));
    nodes.push(And(left, nodes.len() - 1));
    assert_eq!(size(&nodes, &[]), (208, 416));
    assert_eq!(size(&nodes, &[x1]).0, 206);
    assert_eq!(size(&nodes, &[x3]).0, 110);
    assert_eq!(size(&nodes, &[x1, x4]), (108, 216));
}

#[test]
fn a_nested_set_is_taken_from_the_outside() {
    // (a and (b or c)) or d, with both inner nodes renamed: the outer one's helper is seen by the root.
    let mut nodes = symbols(4);
    nodes.extend([Or(1, 2), And(0, 4), Or(5, 3)]);
    assert_eq!(
        clauses(&nodes, 4, &[4, 5]),
        [vec![6, 4], vec![-5, 2, 3], vec![-6, 1], vec![-6, 5]]
    );
}

#[test]
fn conversion_by_distribution() {
    // The lecture lists the same clauses in another order.
    let mut nodes = symbols(6);
    nodes.extend([And(0, 1), And(2, 3), Or(6, 7), And(4, 5), Or(8, 9)]);
    let mut all = vec![];
    for c in [5, 6] {
        for b in [3, 4] {
            for a in [1, 2] {
                all.push(vec![a, b, c]);
            }
        }
    }
    all.sort();
    assert_eq!(clauses(&nodes, 6, &[]), all);
    assert_eq!(size(&nodes, &[6, 7, 8, 9]), (8, 17));
}

#[test]
fn the_choice_is_not_always_the_best() {
    let shared = [Symbol(1), Symbol(2), And(0, 1), And(2, 2), Or(2, 3)];
    assert_eq!(totals(&shared, 2), [8, 6, 5]);
    assert_eq!(size(&shared, &[2]).0, 4);
    let mut tree = symbols(5);
    tree.extend([
        Not(0),
        Or(5, 1),
        Equivalent(3, 4),
        Equivalent(2, 7),
        Equivalent(6, 8),
    ]);
    assert_eq!(totals(&tree, 4), [12, 11, 11, 11, 11]);
    assert_eq!(size(&tree, &[7]).0, 10);
}
