//! Both ways of choosing, and what is promised of a chosen set.

mod drawn;

use drawn::{table, Random};
use reference::choose::{choose, taken_out, Choice};
use reference::convert::measure;
use reference::fast_choose::fast_choose;
use reference::set::may_be_renamed;
use reference::table::Node;
use Node::*;

const CEILING: u32 = 65_535;

/// A table that grows fast: over the node before, mostly with itself, and now and then with a constant.
fn steep(random: &mut Random, count: usize) -> Vec<Node> {
    let mut nodes = vec![Symbol(1), [False, True][random.below(2)]];
    let plain = random.below(3) == 0;
    while nodes.len() < count {
        let number = nodes.len();
        let other = match random.below(6) {
            0 => random.below(number),
            1 if !plain => 1,
            _ => number - 1,
        };
        nodes.push(match random.below(12) {
            0 => Not(number - 1),
            1 | 2 => Implies(other, number - 1),
            3..=5 => And(number - 1, other),
            6 | 7 => Or(number - 1, other),
            _ => Equivalent(number - 1, other),
        });
    }
    nodes
}

/// So many conjunctions of two options each, joined by ors from the left.
fn conjunctions(count: usize) -> Vec<Node> {
    let mut nodes: Vec<Node> = (1..=2 * count as u16).map(Symbol).collect();
    for at in (0..2 * count).step_by(2) {
        nodes.push(And(at, at + 1));
        if at > 0 {
            let last = nodes.len() - 1;
            nodes.push(Or(last - 1, last));
        }
    }
    nodes
}

/// A node, then so many that are each of the node before with itself.
fn twice(first: Node, node: fn(usize, usize) -> Node, times: usize) -> Vec<Node> {
    let mut nodes = vec![first];
    nodes.extend((0..times).map(|below| node(below, below)));
    nodes
}

/// The nodes of a set.
fn numbers(choice: &Choice) -> Vec<usize> {
    (0..choice.set.len())
        .filter(|&number| choice.set[number])
        .collect()
}

/// What is chosen, by both ways.
fn chosen(nodes: &[Node], allowance: u32) -> Choice {
    let choice = choose(nodes, allowance);
    assert_eq!(
        fast_choose(nodes, allowance),
        choice,
        "{allowance} {nodes:?}"
    );
    choice
}

/// How many nodes may be renamed.
fn may(nodes: &[Node]) -> u32 {
    may_be_renamed(nodes).into_iter().filter(|&may| may).count() as u32
}

/// The clause total at the ceiling with these nodes renamed.
fn total(nodes: &[Node], renamed: &[usize]) -> u32 {
    let set: Vec<bool> = (0..nodes.len())
        .map(|node| renamed.contains(&node))
        .collect();
    measure(nodes, &set).shown_clauses()
}

#[test]
fn both_ways_of_choosing_agree() {
    let mut random = Random(362_436_069);
    let (mut picked, mut mended) = (0, 0);
    for turn in 0..4_000 {
        let nodes = match turn % 2 {
            0 => steep(&mut random, 3 + turn % 40),
            _ => table(&mut random, 1 + turn % 60),
        };
        let all = may(&nodes);
        for allowance in [0, 1, 2, 5, all.saturating_sub(1), all, u32::MAX] {
            let choice = chosen(&nodes, allowance);
            assert!(choice.picks <= allowance);
            picked += choice.picks;
        }
        mended += usize::from(choose(&nodes, all.saturating_sub(1)).total == CEILING);
    }
    assert!(picked > 2_000 && mended > 200, "{picked} {mended}");
}

#[test]
fn both_ways_of_choosing_agree_on_1024_nodes() {
    let mut random = Random(521_288_629);
    for _ in 0..4 {
        chosen(&table(&mut random, 1_024), 1_024);
        chosen(&steep(&mut random, 1_024), 1_024);
    }
    chosen(&conjunctions(256), 1_024);
}

/// A larger allowance renames at least the smaller one's nodes. Its total is not higher, nor above that of no renaming.
#[test]
fn a_larger_allowance_only_adds() {
    let mut random = Random(2_463_534_242);
    let (mut at_ceiling, mut below) = (0, 0);
    for turn in 0..900 {
        let nodes = match turn % 3 {
            0 => table(&mut random, 30),
            1 => steep(&mut random, 4 + turn % 30),
            _ => conjunctions(2 + turn % 40),
        };
        let all = may(&nodes);
        let mut allowances: Vec<u32> = (0..8).collect();
        allowances.extend([all.saturating_sub(1), all, all + 1, 1_024, u32::MAX]);
        allowances.sort_unstable();
        let choices: Vec<Choice> = allowances
            .iter()
            .map(|&most| choose(&nodes, most))
            .collect();
        for pair in choices.windows(2) {
            assert!(pair[1].total <= pair[0].total);
            let mut both = pair[0].set.iter().zip(&pair[1].set);
            assert!(both.all(|(less, more)| !less || *more));
        }
        let (none, most) = (&choices[0], &choices[choices.len() - 1]);
        assert_eq!((none.picks, none.total), (0, total(&nodes, &[])));
        // With all nodes allowed the ceiling is never left as it is.
        assert!(most.total < CEILING);
        let first = choose(&nodes, all.saturating_sub(1));
        match first.total {
            CEILING => at_ceiling += 1,
            _ => below += usize::from(none.total == CEILING),
        }
    }
    assert!(at_ceiling > 100 && below > 50, "{at_ceiling} {below}");
}

#[test]
fn a_chosen_total_is_that_of_the_output() {
    let mut random = Random(675_248);
    for turn in 0..1_000 {
        let nodes = match turn % 2 {
            0 => table(&mut random, 25),
            _ => steep(&mut random, 25),
        };
        let choice = chosen(&nodes, 1_024);
        assert_eq!(choice.total, total(&nodes, &numbers(&choice)));
        assert_eq!(choice.picks as usize, numbers(&choice).len());
    }
}

/// A definition has two clauses a half at most, and so has the root.
#[test]
fn with_all_nodes_renamed_there_are_4090_clauses_at_most() {
    let most = 2 + 4 * 1_022;
    let mut random = Random(1_812_433_253);
    for turn in 0..600 {
        let nodes = match turn % 2 {
            0 => table(&mut random, 1 + turn),
            _ => steep(&mut random, 3 + turn),
        };
        let all = may_be_renamed(&nodes);
        let size = measure(&nodes, &all);
        assert!(size.clauses <= 2 + 4 * u64::from(may(&nodes)));
        assert!(taken_out(&nodes).total <= size.shown_clauses());
    }
    // All of these equivalences have both signs, and taking any of them out would cost more.
    let choice = chosen(&twice(Symbol(1), Equivalent, 1_023), 1_024);
    assert_eq!((choice.picks, choice.total), (1_022, most));
}

#[test]
fn totals_that_tie_are_not_renamed() {
    let nodes = [Symbol(1), Symbol(2), And(0, 1), And(1, 0), Or(2, 3)];
    assert_eq!(chosen(&nodes, 9).picks, 0);
}

/// No single renaming brings them below the ceiling. With all but the root renamed there are 119 clauses. An or is then
/// taken out each time, and of the conjunctions the last two.
#[test]
fn forty_conjunctions_keep_all_ands_but_two() {
    let nodes = conjunctions(40);
    assert_eq!(may(&nodes), 78);
    let all: Vec<usize> = (80..158).collect();
    assert_eq!(total(&nodes, &[]), CEILING);
    assert!(all.iter().all(|&one| total(&nodes, &[one]) == CEILING));
    assert_eq!(total(&nodes, &all), 119);
    for allowance in [0, 1, 38, 77] {
        let choice = chosen(&nodes, allowance);
        assert_eq!((choice.picks, choice.total), (0, CEILING));
    }
    let mut ands = vec![80];
    ands.extend((81..=153).step_by(2));
    for allowance in [78, 79, 1_024, u32::MAX] {
        let choice = chosen(&nodes, allowance);
        assert_eq!((choice.picks, choice.total), (38, 80));
        assert_eq!(numbers(&choice), ands);
    }
}

/// The first pass ends with 62 clauses. Taking out would end with 40, but it is not made.
#[test]
fn below_the_ceiling_the_first_pass_stands() {
    let nodes = conjunctions(20);
    let first = chosen(&nodes, 14);
    assert_eq!((first.picks, first.total), (14, 62));
    for allowance in [15, 37, 38, 39, 1_024, u32::MAX] {
        assert_eq!(chosen(&nodes, allowance), first);
    }
    assert_eq!((taken_out(&nodes).picks, taken_out(&nodes).total), (18, 40));
}

/// Ands of the node before with itself: the highest ties and is taken out, the next one would cost more, and so on.
#[test]
fn where_totals_tie_a_node_is_taken_out() {
    let nodes = twice(Symbol(1), And, 30);
    assert_eq!(total(&nodes, &(1..30).collect::<Vec<_>>()), 60);
    assert_eq!(total(&nodes, &(1..29).collect::<Vec<_>>()), 60);
    let choice = chosen(&nodes, 29);
    assert_eq!(choice.total, 60);
    assert_eq!(numbers(&choice), (2..=28).step_by(2).collect::<Vec<_>>());
    assert_eq!(chosen(&nodes, 28).total, CEILING);
}

/// A node that is kept may be of no use at the end: what is below it was taken out later, and is true.
#[test]
fn a_kept_node_may_be_of_no_use_at_the_end() {
    let small = [True, And(0, 0), And(1, 1), Or(2, 2)];
    let end = taken_out(&small);
    assert_eq!((numbers(&end), end.total), (vec![2], 1));
    assert_eq!(total(&small, &[]), 0);
    let mut nodes = vec![True, Symbol(1), And(0, 0), And(1, 2)];
    nodes.extend((3..11).map(|below| Equivalent(below, below)));
    assert_eq!(chosen(&nodes, 8).total, CEILING);
    let choice = chosen(&nodes, 9);
    assert_eq!((numbers(&choice), choice.total), ((3..=10).collect(), 32));
    assert_eq!(total(&nodes, &(4..=10).collect::<Vec<_>>()), 30);
}

/// Without constants there is no such node.
#[test]
fn without_constants_every_kept_node_is_of_use_at_the_end() {
    let mut random = Random(69_069);
    let mut kept = 0;
    for turn in 0..1_500 {
        let nodes: Vec<Node> = match turn % 2 {
            0 => table(&mut random, 3 + turn % 25),
            _ => steep(&mut random, 3 + turn % 25),
        };
        let symbols = |&node: &Node| match node {
            False | True => Symbol(1),
            other => other,
        };
        let nodes: Vec<Node> = nodes.iter().map(symbols).collect();
        let end = taken_out(&nodes);
        for one in numbers(&end) {
            let others: Vec<usize> = numbers(&end).into_iter().filter(|&at| at != one).collect();
            assert!(total(&nodes, &others) > end.total, "{one} {nodes:?}");
            kept += 1;
        }
    }
    assert!(kept > 2_000, "{kept}");
}
