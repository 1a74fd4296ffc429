//! Times the entries on guards of eight nodes, as half of all real guards have or fewer, in nanoseconds a call.
//!
//! The reference makes the same calls: it reads the table and the set, as each entry does, and converts by the same method.

mod library;
mod tables;
mod timing;

use reference::fast_choose::fast_choose;
use reference::table::{check, check_taken, Node};
use reference::{per_clause, set};
use std::time::Duration;
use tables::{push, Guard, ALLOWANCE};
use timing::{keep, ratio, ROUNDS};

const NODES: usize = 8;
const ROOM: usize = 4_096;

/// (s1 and s2) or (not s3 and s4), of a project of thousands of options.
fn written() -> Guard {
    let mut table = vec![];
    let nodes = [
        (2, 1, 0),
        (2, 2, 0),
        (4, 0, 1),
        (2, 3, 0),
        (3, 3, 0),
        (2, 4, 0),
        (4, 4, 5),
        (5, 2, 6),
    ];
    for (kind, a, b) in nodes {
        push(&mut table, kind, a, b);
    }
    Guard {
        options: 25_391,
        table,
    }
}

fn nodes(guard: &Guard) -> Vec<Node> {
    check(&guard.table, guard.options).expect("the table is right")
}

fn reference_choose(guard: &Guard, set: &mut [u8]) -> [u32; 2] {
    let choice = fast_choose(&nodes(guard), ALLOWANCE);
    for (byte, renamed) in set.iter_mut().zip(choice.set) {
        *byte = u8::from(renamed);
    }
    [choice.picks, choice.total]
}

fn reference_measure(guard: &Guard, set: &[u8]) -> [u32; 2] {
    let nodes = nodes(guard);
    per_clause::measure(&nodes, &set::check(&nodes, set).expect("the set is right"))
}

fn reference_convert(guard: &Guard, taken: u32, set: &[u8], out: &mut [u8]) -> [u32; 2] {
    let nodes = nodes(guard);
    check_taken(guard.options, taken).expect("it is right");
    let renamed = set::check(&nodes, set).expect("the set is right");
    per_clause::convert(&nodes, taken, &renamed, out).expect("it is accepted")
}

/// A guard with what each entry is lent. Library and reference agree on all of it.
struct Case {
    guard: Guard,
    set: Vec<u8>,
    taken: u32,
}

fn agreed(guard: Guard) -> Case {
    let (mut set, mut other) = (vec![9; NODES], vec![9; NODES]);
    let chosen = library::choose(&guard.table, guard.options, ALLOWANCE, &mut set);
    assert_eq!(chosen, reference_choose(&guard, &mut other));
    assert_eq!(set, other);
    assert_eq!(
        library::measure(&guard.table, guard.options, &set),
        reference_measure(&guard, &set)
    );
    let taken = guard.options + 7;
    let (mut out, mut expected) = (vec![9; ROOM], vec![9; ROOM]);
    assert_eq!(
        library::convert(&guard.table, guard.options, &set, &mut out),
        reference_convert(&guard, guard.options, &set, &mut expected)
    );
    assert_eq!(out, expected);
    assert_eq!(
        library::convert_after(&guard.table, guard.options, taken, &set, &mut out),
        reference_convert(&guard, taken, &set, &mut expected)
    );
    assert_eq!(out, expected);
    Case { guard, set, taken }
}

/// Times a call of the library and one of the reference over all cases, and prints nanoseconds a call.
fn show(
    name: &str,
    cases: &[Case],
    library: impl Fn(&Case, &mut [u8]) -> [u32; 2],
    reference: impl Fn(&Case, &mut [u8]) -> [u32; 2],
) {
    let (mut mine, mut theirs) = (vec![0; ROOM], vec![0; ROOM]);
    let [library, reference] = timing::best([
        &mut || cases.iter().for_each(|case| keep(library(case, &mut mine))),
        &mut || {
            cases
                .iter()
                .for_each(|case| keep(reference(case, &mut theirs)))
        },
    ]);
    let each = |time: Duration| time.as_secs_f64() * 1e9 / cases.len() as f64;
    println!(
        "  {name:13}  {:7.0}  {:9.0}  {:5.2}",
        each(library),
        each(reference),
        ratio(library, reference)
    );
}

fn show_all(name: &str, guards: Vec<Guard>) {
    let cases: Vec<Case> = guards.into_iter().map(agreed).collect();
    println!("{name}: {} tables; nanoseconds a call", cases.len());
    println!("  entry          library  reference  ratio");
    show(
        "check",
        &cases,
        |case, _| library::check(&case.guard.table, case.guard.options),
        |case, _| [0, nodes(&case.guard).len() as u32],
    );
    show(
        "choose",
        &cases,
        |case, out| {
            let (table, options) = (&case.guard.table, case.guard.options);
            library::choose(table, options, ALLOWANCE, &mut out[..NODES])
        },
        |case, out| reference_choose(&case.guard, &mut out[..NODES]),
    );
    show(
        "measure",
        &cases,
        |case, _| library::measure(&case.guard.table, case.guard.options, &case.set),
        |case, _| reference_measure(&case.guard, &case.set),
    );
    show(
        "convert",
        &cases,
        |case, out| library::convert(&case.guard.table, case.guard.options, &case.set, out),
        |case, out| reference_convert(&case.guard, case.guard.options, &case.set, out),
    );
    show(
        "convert_after",
        &cases,
        |case, out| {
            let (table, options) = (&case.guard.table, case.guard.options);
            library::convert_after(table, options, case.taken, &case.set, out)
        },
        |case, out| reference_convert(&case.guard, case.taken, &case.set, out),
    );
}

fn main() {
    println!("guards of {NODES} nodes; best of {ROUNDS} rounds");
    show_all("(s1 and s2) or (not s3 and s4)", vec![written()]);
    let guards = tables::given().unwrap_or_else(tables::sample);
    let real: Vec<Guard> = guards
        .into_iter()
        .filter(|guard| guard.table.len() == 5 * NODES)
        .collect();
    assert!(!real.is_empty(), "some guards have {NODES} nodes");
    show_all("real guards", real);
}
