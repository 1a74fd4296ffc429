//! Totals, both ways of converting and origins, against lists made as the rules write them.

mod drawn;

use drawn::{table, Random};
use reference::answer::Refusal;
use reference::convert::{clause_bytes, each_clause, measure};
use reference::lists::Lists;
use reference::origin;
use reference::per_clause;
use reference::polarity::marks;
use reference::set::may_be_renamed;
use reference::table::Node;
use reference::totals::{rows, Size};
use Node::*;

type Clauses = Vec<Vec<i32>>;

fn join(left: &Clauses, right: &Clauses) -> Clauses {
    let with = |clause: &Vec<i32>| -> Clauses {
        right
            .iter()
            .map(|other| [&clause[..], &other[..]].concat())
            .collect()
    };
    left.iter().flat_map(with).collect()
}

/// P and N of every node, whole. For small tables alone.
fn whole(nodes: &[Node], helpers: &[i32]) -> Vec<(Clauses, Clauses)> {
    let mut all: Vec<(Clauses, Clauses)> = vec![];
    for &node in nodes {
        let seen = |child: usize| match helpers[child] {
            0 => all[child].clone(),
            helper => (vec![vec![helper]], vec![vec![-helper]]),
        };
        let lists = match node {
            False => (vec![vec![]], vec![]),
            True => (vec![], vec![vec![]]),
            Symbol(s) => (vec![vec![i32::from(s)]], vec![vec![-i32::from(s)]]),
            Not(a) => (seen(a).1, seen(a).0),
            And(a, b) => (
                [seen(a).0, seen(b).0].concat(),
                join(&seen(a).1, &seen(b).1),
            ),
            Or(a, b) => (
                join(&seen(a).0, &seen(b).0),
                [seen(a).1, seen(b).1].concat(),
            ),
            Implies(a, b) => (
                join(&seen(a).1, &seen(b).0),
                [seen(a).0, seen(b).1].concat(),
            ),
            Equivalent(a, b) => (
                [join(&seen(a).1, &seen(b).0), join(&seen(b).1, &seen(a).0)].concat(),
                [join(&seen(a).1, &seen(b).1), join(&seen(a).0, &seen(b).0)].concat(),
            ),
        };
        all.push(lists);
    }
    all
}

/// The parts of the output, made from whole lists: a node, its helper, the word for the part, its clauses.
fn parts(
    nodes: &[Node],
    options: u32,
    renamed: &[bool],
) -> Vec<(usize, i32, &'static str, Clauses)> {
    let mut helpers = vec![0; nodes.len()];
    let mut last = options as i32;
    for node in (0..nodes.len()).filter(|&node| renamed[node]) {
        last += 1;
        helpers[node] = last;
    }
    let (lists, marks) = (whole(nodes, &helpers), marks(nodes));
    let root = nodes.len() - 1;
    let mut all = vec![(root, 0, "root", lists[root].0.clone())];
    for node in (0..nodes.len()).filter(|&node| renamed[node]) {
        let helper = helpers[node];
        if marks[node].positive {
            let down = join(&vec![vec![-helper]], &lists[node].0);
            all.push((node, helper, "down", down));
        }
        if marks[node].negative {
            let up = join(&lists[node].1, &vec![vec![helper]]);
            all.push((node, helper, "up", up));
        }
    }
    all
}

/// The whole output, made from whole lists.
fn output(nodes: &[Node], options: u32, renamed: &[bool]) -> Clauses {
    let parts = parts(nodes, options, renamed);
    parts
        .into_iter()
        .flat_map(|(_, _, _, clauses)| clauses)
        .collect()
}

fn converted(nodes: &[Node], options: u32, renamed: &[bool]) -> Clauses {
    let mut all = vec![];
    each_clause(nodes, options, renamed, |clause| all.push(clause.to_vec()));
    all
}

fn size(clauses: &Clauses) -> Size {
    Size {
        clauses: clauses.len() as u64,
        literals: clauses.iter().map(|clause| clause.len() as u64).sum(),
    }
}

fn some_set(random: &mut Random, nodes: &[Node]) -> Vec<bool> {
    let often = 1 + random.below(4);
    let may = may_be_renamed(nodes);
    may.into_iter()
        .map(|may| may && random.below(often) == 0)
        .collect()
}

/// Whether whole lists of all nodes are small enough to make.
fn is_small(nodes: &[Node], renamed: &[bool]) -> bool {
    let rows = rows(&Lists::new(nodes), renamed);
    rows.iter()
        .flatten()
        .all(|size| size.clauses < 3_000 && size.literals < 30_000)
}

#[test]
fn totals_and_clauses_are_those_of_the_whole_lists() {
    let mut random = Random(88_172_645_463_325_252);
    let mut compared = 0;
    for turn in 0..6_000 {
        let nodes = table(&mut random, 1 + turn % 14);
        let renamed = some_set(&mut random, &nodes);
        if !is_small(&nodes, &renamed) {
            continue;
        }
        compared += 1;
        let whole = output(&nodes, 7, &renamed);
        assert_eq!(
            measure(&nodes, &renamed),
            size(&whole),
            "{nodes:?} {renamed:?}"
        );
        assert_eq!(
            converted(&nodes, 7, &renamed),
            whole,
            "{nodes:?} {renamed:?}"
        );
    }
    assert!(compared > 3_000, "{compared}");
}

/// Lines of all clauses as the rules write them. Each option's name is `o` and its number, each helper's `h` and its own.
fn told(nodes: &[Node], options: u32, renamed: &[bool]) -> Vec<String> {
    let literal = |&literal: &i32| {
        let sign = if literal < 0 { "!" } else { "" };
        let variable = literal.unsigned_abs();
        let letter = if variable > options { 'h' } else { 'o' };
        format!("\t{sign}{letter}{variable}")
    };
    let mut lines = vec![];
    for (node, helper, word, clauses) in parts(nodes, options, renamed) {
        for (number, clause) in clauses.iter().enumerate() {
            let literals: String = clause.iter().map(literal).collect();
            let k = lines.len();
            lines.push(format!(
                "{k}\t{node}\t{helper}\t{word}\t{number}{literals}\n"
            ));
        }
    }
    lines
}

fn names(letter: char, first: u32, last: u32) -> String {
    (first..=last)
        .map(|variable| format!("{letter}{variable}\n"))
        .collect()
}

#[test]
fn origins_are_those_of_the_whole_lists() {
    const V: u32 = 7;
    let mut random = Random(2_718_281_828);
    let (mut words, mut empty) = (std::collections::BTreeMap::new(), 0);
    for turn in 0..4_000 {
        let nodes = table(&mut random, 1 + turn % 14);
        let renamed = some_set(&mut random, &nodes);
        if !is_small(&nodes, &renamed) {
            continue;
        }
        let last = V + renamed.iter().filter(|&&renamed| renamed).count() as u32;
        let (option_names, helper_names) = (names('o', 1, V), names('h', V + 1, last));
        let lists = origin::Lists {
            options: option_names.as_bytes(),
            helpers: helper_names.as_bytes(),
        };
        let expected = told(&nodes, V, &renamed);
        let whole = expected.concat().into_bytes();
        let values = [last, expected.len() as u32];
        let found = |wanted: Option<u32>, room: usize| {
            origin::lines(&nodes, V, &renamed, wanted, lists, room)
        };
        assert_eq!(found(None, whole.len()), Ok((whole, values)), "{nodes:?}");
        // One line that is drawn, and no line behind the last.
        if !expected.is_empty() {
            let k = random.below(expected.len());
            let line = expected[k].as_bytes().to_vec();
            assert_eq!(found(Some(k as u32), line.len()), Ok((line, values)));
        }
        let over = found(Some(values[1]), usize::MAX);
        assert_eq!(over, Err(Refusal::at(15, expected.len())));
        for line in expected {
            *words
                .entry(line.split('\t').nth(3).unwrap().to_string())
                .or_insert(0) += 1;
            empty += usize::from(line.split('\t').count() == 5);
        }
    }
    assert!(
        words.len() == 3 && words.values().all(|&count| count > 1_000),
        "{words:?}"
    );
    assert!(empty > 500, "{empty}");
}

/// Bytes that neither way of converting writes are told apart from those that it does.
const UNTOUCHED: u8 = 0xa5;

/// Converts both ways with a buffer of so many bytes, and compares the whole buffer. Gives the refusal's number, or 0.
fn converted_both_ways(nodes: &[Node], options: u32, renamed: &[bool], room: usize) -> u32 {
    let size = measure(nodes, renamed);
    let shown = [size.shown_clauses(), size.shown_literals()];
    assert_eq!(
        per_clause::measure(nodes, renamed),
        shown,
        "{renamed:?} {nodes:?}"
    );
    let mut out = vec![UNTOUCHED; room];
    let found = per_clause::convert(nodes, options, renamed, &mut out);
    let mut expected = vec![UNTOUCHED; room];
    let values = clause_bytes(nodes, options, renamed, room).map(|(bytes, values)| {
        expected[..bytes.len()].copy_from_slice(&bytes);
        values
    });
    assert_eq!(found, values, "{room} bytes, {renamed:?} {nodes:?}");
    assert!(out == expected, "{room} bytes, {renamed:?} {nodes:?}");
    found.err().map_or(0, |refusal| refusal.number)
}

#[test]
fn both_ways_of_converting_agree() {
    let mut random = Random(123_456_789);
    let mut counts = [0; 8];
    for turn in 0..12_000 {
        let nodes = table(&mut random, 1 + turn % 160);
        let renamed = some_set(&mut random, &nodes);
        let size = measure(&nodes, &renamed);
        let needed = 4 * (size.clauses.min(65_535) + size.literals.min(1_000_000)) as usize;
        // Long ones are compared seldom, so that the test stays quick.
        let rooms = match needed {
            0 => vec![0, 3],
            1..=400_000 => vec![needed, needed + 9, needed - 1],
            _ => vec![64],
        };
        for room in rooms {
            counts[converted_both_ways(&nodes, 9, &renamed, room) as usize] += 1;
        }
    }
    assert!(
        counts[0] > 10_000 && counts[5] > 20 && counts[7] > 5_000,
        "{counts:?}"
    );
}

#[test]
fn both_ways_of_converting_agree_at_the_ceilings() {
    const ROOM: usize = 4 * (999_999 + 65_534);
    let converted = |nodes: &[Node]| converted_both_ways(nodes, 1, &vec![false; nodes.len()], ROOM);
    let mut many = vec![Symbol(1)];
    for below in (0..28).step_by(2) {
        many.extend([And(below, below), And(below + 1, 0)]);
    }
    many.push(And(28, 28));
    assert_eq!(converted(&many), 0);
    many.push(And(29, 0));
    assert_eq!(converted(&many), 5);
    assert_eq!(converted(&twice(Symbol(1), Or, 19)), 0);
    assert_eq!(converted(&twice(Symbol(1), Or, 20)), 6);
    assert_eq!(converted(&twice(False, And, 15)), 0);
    assert_eq!(converted(&twice(False, And, 16)), 5);
    assert_eq!(converted(&twice(False, Or, 1_023)), 0);
    assert_eq!(converted(&twice(Symbol(1), Equivalent, 1_023)), 5);
}

fn twice(first: Node, node: fn(usize, usize) -> Node, times: usize) -> Vec<Node> {
    let mut nodes = vec![first];
    nodes.extend((0..times).map(|below| node(below, below)));
    nodes
}

fn shown(nodes: &[Node]) -> (u32, u32) {
    let size = measure(nodes, &vec![false; nodes.len()]);
    (size.shown_clauses(), size.shown_literals())
}

fn refused(nodes: &[Node]) -> Option<Refusal> {
    clause_bytes(nodes, 1, &vec![false; nodes.len()], usize::MAX).err()
}

#[test]
fn at_the_clause_ceiling_no_literal_total_is_stated() {
    assert_eq!(shown(&twice(False, And, 15)), (32_768, 0));
    assert_eq!(shown(&twice(False, And, 16)), (65_535, 1_000_000));
    assert_eq!(shown(&twice(Symbol(1), And, 16)), (65_535, 1_000_000));
    assert_eq!(shown(&twice(Symbol(1), Or, 20)), (1, 1_000_000));
}

#[test]
fn a_huge_total_joined_with_true_is_nothing() {
    for node in [And, Or, Equivalent] {
        let mut nodes = twice(Symbol(1), node, 1_000);
        nodes.push(True);
        nodes.push(Or(1_000, 1_001));
        assert_eq!(shown(&nodes), (0, 0));
        assert_eq!(
            converted(&nodes, 1, &vec![false; nodes.len()]),
            Clauses::new()
        );
        nodes.push(And(0, 1_002));
        assert_eq!(converted(&nodes, 1, &vec![false; nodes.len()]), [[1]]);
    }
}

#[test]
fn a_huge_total_is_refused_by_clauses_before_literals() {
    assert_eq!(
        refused(&twice(Symbol(1), Equivalent, 1_023)),
        Some(Refusal::new(5))
    );
    assert_eq!(refused(&twice(Symbol(1), Or, 1_023)), Some(Refusal::new(6)));
}

#[test]
fn shared_constants_are_not_walked_again_and_again() {
    let none: Vec<bool> = vec![false; 1_024];
    assert_eq!(converted(&twice(False, Or, 1_023), 0, &none), [vec![]]);
    let mut nodes = twice(False, Or, 1_021);
    nodes.push(Symbol(1));
    nodes.push(Or(1_021, 1_022));
    assert_eq!(converted(&nodes, 1, &none), [[1]]);
    // Empty clauses, one after the other.
    let many = twice(False, And, 12);
    assert_eq!(converted(&many, 0, &none[..13]), vec![vec![]; 4_096]);
}

#[test]
fn helpers_are_counted_from_the_option_count() {
    let nodes = [Symbol(1), Not(0), Not(1), Not(2), Not(3)];
    let renamed = [false, true, false, true, false];
    assert_eq!(
        converted(&nodes, 10, &renamed),
        [vec![-12], vec![1, 11], vec![-11, 12]]
    );
}

#[test]
fn a_definition_is_written_where_its_helper_occurs_nowhere_else() {
    // Node 2 is only seen through node 3, which is joined with true.
    let nodes = [Symbol(1), True, Not(0), And(2, 0), Or(3, 1)];
    let renamed = [false, false, true, false, false];
    assert_eq!(converted(&nodes, 1, &renamed), [[-2, -1]]);
}

#[test]
fn a_node_of_both_polarities_gives_two_halves() {
    let nodes = [Symbol(1), Symbol(2), And(0, 1), Equivalent(2, 0)];
    let renamed = [false, false, true, false];
    assert_eq!(
        converted(&nodes, 2, &renamed),
        [
            vec![-3, 1],
            vec![-1, 3],
            vec![-3, 1],
            vec![-3, 2],
            vec![-1, -2, 3]
        ]
    );
}
