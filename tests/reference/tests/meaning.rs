//! The clauses mean what the formula means, on every row of values of small tables.

mod drawn;

use drawn::Random;
use reference::convert::{each_clause, measure};
use reference::set::may_be_renamed;
use reference::table::Node;
use Node::*;

const OPTIONS: usize = 3;

/// The truth of each node in a row of option values.
fn truths(nodes: &[Node], row: usize) -> Vec<bool> {
    let mut truths: Vec<bool> = vec![];
    for &node in nodes {
        let truth = match node {
            False => false,
            True => true,
            Symbol(s) => row >> (s - 1) & 1 == 1,
            Not(a) => !truths[a],
            And(a, b) => truths[a] && truths[b],
            Or(a, b) => truths[a] || truths[b],
            Implies(a, b) => !truths[a] || truths[b],
            Equivalent(a, b) => truths[a] == truths[b],
        };
        truths.push(truth);
    }
    truths
}

/// Bit v - 1 of a row is the value of variable v.
fn satisfies(row: usize, clauses: &[Vec<i32>]) -> bool {
    let holds = |&literal: &i32| (row >> (literal.unsigned_abs() - 1) & 1 == 1) == (literal > 0);
    clauses.iter().all(|clause| clause.iter().any(holds))
}

fn table(random: &mut Random, count: usize) -> Vec<Node> {
    let mut nodes = vec![Symbol(1), Symbol(2), Symbol(3)];
    while nodes.len() < count {
        let number = nodes.len();
        let mut child = || number - 1 - random.below(number.min(5));
        let (a, b) = (child(), child());
        nodes.push(match random.below(12) {
            0 => False,
            1 => True,
            2 | 3 => Not(a),
            4 | 5 => And(a, b),
            6 | 7 => Or(a, b),
            8 | 9 => Implies(a, b),
            _ => Equivalent(a, b),
        });
    }
    nodes
}

#[test]
fn rows_of_the_clauses_are_rows_of_the_formula() {
    let mut random = Random(123_456_789);
    let mut with_helpers = 0;
    for turn in 0..4_000 {
        let nodes = table(&mut random, 4 + turn % 9);
        let mut left = 5;
        let mut renamed = may_be_renamed(&nodes);
        for may in renamed.iter_mut().filter(|may| **may) {
            *may = left > 0 && random.below(2) == 0;
            left -= usize::from(*may);
        }
        if measure(&nodes, &renamed).literals > 4_000 {
            continue;
        }
        let helpers: Vec<usize> = (0..nodes.len()).filter(|&node| renamed[node]).collect();
        with_helpers += usize::from(!helpers.is_empty());
        let mut clauses = vec![];
        each_clause(&nodes, OPTIONS as u32, &renamed, |clause| {
            clauses.push(clause.to_vec())
        });
        for row in 0..1 << OPTIONS {
            let truths = truths(&nodes, row);
            let holds = truths[nodes.len() - 1];
            // A row of the formula, with each helper at its node's truth, is a row of the clauses.
            let places = helpers.iter().enumerate();
            let extended = places.fold(row, |row, (place, &node)| {
                row | usize::from(truths[node]) << (OPTIONS + place)
            });
            assert_eq!(
                satisfies(extended, &clauses),
                holds,
                "{nodes:?} {renamed:?}"
            );
            // A row of the clauses is a row of the formula, whatever its helpers are.
            for values in 0..1 << helpers.len() {
                let any = row | values << OPTIONS;
                assert!(holds || !satisfies(any, &clauses), "{nodes:?} {renamed:?}");
            }
        }
    }
    assert!(with_helpers > 1_000, "{with_helpers}");
}

/// A guard of a list that is converted one after the other: its nodes, and each renamed node with its helper.
struct Guard {
    nodes: Vec<Node>,
    helpers: Vec<(usize, usize)>,
}

#[test]
fn guards_converted_one_after_the_other_mean_all_of_them_together() {
    let mut random = Random(987_654_321);
    let (mut both_kinds, mut with_helpers) = ([0, 0], 0);
    for turn in 0..1_500 {
        let (mut guards, mut clauses, mut taken) = (vec![], vec![], OPTIONS);
        for _ in 0..2 + turn % 3 {
            let nodes = table(&mut random, 4 + turn % 7);
            // Two helpers at most for each guard, so that all rows can be gone through.
            let mut left = 2;
            let mut renamed = may_be_renamed(&nodes);
            for may in renamed.iter_mut().filter(|may| **may) {
                *may = left > 0 && random.below(3) > 0;
                left -= usize::from(*may);
            }
            if measure(&nodes, &renamed).literals > 2_000 {
                continue;
            }
            let nodes_renamed = (0..nodes.len()).filter(|&node| renamed[node]);
            let helpers: Vec<(usize, usize)> = nodes_renamed.zip(taken + 1..).collect();
            // Each variable is an option that this guard names, or a helper of one of its own nodes.
            let named = |variable: usize| match variable <= OPTIONS {
                true => nodes.contains(&Symbol(variable as u16)),
                false => helpers.iter().any(|&(_, helper)| helper == variable),
            };
            each_clause(&nodes, taken as u32, &renamed, |clause| {
                let mut variables = clause.iter().map(|literal| literal.unsigned_abs() as usize);
                assert!(variables.all(named), "{nodes:?} {renamed:?}");
                clauses.push(clause.to_vec())
            });
            taken += helpers.len();
            guards.push(Guard { nodes, helpers });
        }
        with_helpers += usize::from(guards.iter().filter(|it| !it.helpers.is_empty()).count() > 1);
        for row in 0..1 << OPTIONS {
            let (mut holds, mut extended) = (true, row);
            for guard in &guards {
                let truths = truths(&guard.nodes, row);
                holds &= truths[guard.nodes.len() - 1];
                for &(node, helper) in &guard.helpers {
                    extended |= usize::from(truths[node]) << (helper - 1);
                }
            }
            both_kinds[usize::from(holds)] += 1;
            assert_eq!(satisfies(extended, &clauses), holds);
            for values in 0..1 << (taken - OPTIONS) {
                assert!(holds || !satisfies(row | values << OPTIONS, &clauses));
            }
        }
    }
    assert!(with_helpers > 500, "{with_helpers}");
    assert!(
        both_kinds.iter().all(|&count| count > 500),
        "{both_kinds:?}"
    );
}
