//! Times a whole pass over guards as a host makes it: check, choose, measure, convert and write each of them. Then
//! each entry by itself. A folder of guards may be given; else it is the sample.
//!
//! The reference makes the same pass with its fastest functions: fast choosing, and converting clause by clause. Each
//! of its steps reads the table and the set again, as each entry does. Its writer allocates what it gives.

mod library;
mod pass;
mod tables;
mod timing;

use pass::{library_pass, room, Buffers, Passed};
use reference::fast_choose::fast_choose;
use reference::table::{self, Node};
use reference::{dimacs_writer, per_clause, set};
use std::time::Duration;
use tables::{Guard, ALLOWANCE};
use timing::{keep, micros, ratio, ROUNDS};

fn nodes(guard: &Guard) -> Vec<Node> {
    table::check(&guard.table, guard.options).expect("the table is right")
}

fn nodes_and_set(guard: &Guard, set: &[u8]) -> (Vec<Node>, Vec<bool>) {
    let nodes = nodes(guard);
    let renamed = set::check(&nodes, set).expect("the set is right");
    (nodes, renamed)
}

fn reference_choose(guard: &Guard, set: &mut [u8]) {
    let chosen = fast_choose(&nodes(guard), ALLOWANCE).set;
    for (byte, renamed) in set.iter_mut().zip(chosen) {
        *byte = u8::from(renamed);
    }
}

fn reference_measure(guard: &Guard, set: &[u8]) -> [u32; 2] {
    let (nodes, renamed) = nodes_and_set(guard, set);
    per_clause::measure(&nodes, &renamed)
}

fn reference_convert(guard: &Guard, set: &[u8], clauses: &mut [u8]) -> [u32; 2] {
    let (nodes, renamed) = nodes_and_set(guard, set);
    per_clause::convert(&nodes, guard.options, &renamed, clauses).expect("it is accepted")
}

fn reference_write(clauses: &[u8], variables: u32) -> Vec<u8> {
    let written = dimacs_writer::text(clauses, variables, usize::MAX);
    written.expect("the clauses are right").0
}

fn reference_pass(guard: &Guard, buffers: &mut Buffers) -> Passed {
    keep(nodes(guard));
    let set = &mut buffers.set[..guard.table.len() / 5];
    reference_choose(guard, set);
    let bytes = room(reference_measure(guard, set));
    let clauses = &mut buffers.clauses[..bytes];
    let [variables, _] = reference_convert(guard, set, clauses);
    let text = reference_write(clauses, variables);
    buffers.text[..text.len()].copy_from_slice(&text);
    Passed {
        nodes: set.len(),
        bytes,
        variables,
    }
}

/// A guard with what each step of its pass is given.
struct Step {
    guard: Guard,
    set: Vec<u8>,
    clauses: Vec<u8>,
    variables: u32,
}

/// Makes both passes over a guard, and compares all that they leave.
fn agreed(guard: Guard, buffers: &mut [Buffers; 2]) -> Step {
    let [mine, theirs] = buffers;
    let expected = reference_pass(&guard, theirs);
    let (nodes, bytes) = (expected.nodes, expected.bytes);
    let text = reference_write(&theirs.clauses[..bytes], expected.variables);
    // What a pass before left must not count.
    mine.set[..nodes].fill(255);
    mine.clauses[..bytes].fill(255);
    mine.text[..text.len()].fill(255);
    let passed = library_pass(&guard, mine);
    assert_eq!(passed.bytes, bytes, "both have the same room");
    assert_eq!(passed.variables, expected.variables, "and variables");
    assert!(mine.set[..nodes] == theirs.set[..nodes], "and set");
    assert!(
        mine.clauses[..bytes] == theirs.clauses[..bytes],
        "and clauses"
    );
    assert!(mine.text[..text.len()] == text, "and text");
    Step {
        set: theirs.set[..nodes].to_vec(),
        clauses: theirs.clauses[..bytes].to_vec(),
        variables: expected.variables,
        guard,
    }
}

/// Times a step of the library and one of the reference over all guards.
fn over_all(
    steps: &[Step],
    library: impl Fn(&Step, &mut Buffers),
    reference: impl Fn(&Step, &mut Buffers),
) -> [Duration; 2] {
    let (mut mine, mut theirs) = (Buffers::new(), Buffers::new());
    timing::best([
        &mut || steps.iter().for_each(|step| library(step, &mut mine)),
        &mut || steps.iter().for_each(|step| reference(step, &mut theirs)),
    ])
}

fn main() {
    let guards = tables::given().unwrap_or_else(tables::sample);
    let mut buffers = [Buffers::new(), Buffers::new()];
    let steps: Vec<Step> = guards
        .into_iter()
        .map(|guard| agreed(guard, &mut buffers))
        .collect();

    let whole = over_all(
        &steps,
        |step, buffers| keep(library_pass(&step.guard, buffers)),
        |step, buffers| keep(reference_pass(&step.guard, buffers)),
    );
    let each = [
        (
            "check",
            over_all(
                &steps,
                |step, _| {
                    keep(library::check(&step.guard.table, step.guard.options));
                },
                |step, _| keep(nodes(&step.guard)),
            ),
        ),
        (
            "choose",
            over_all(
                &steps,
                |step, buffers| {
                    let set = &mut buffers.set[..step.set.len()];
                    let (table, options) = (&step.guard.table, step.guard.options);
                    keep(library::choose(table, options, ALLOWANCE, set));
                },
                |step, buffers| reference_choose(&step.guard, &mut buffers.set[..step.set.len()]),
            ),
        ),
        (
            "measure",
            over_all(
                &steps,
                |step, _| {
                    let (table, options) = (&step.guard.table, step.guard.options);
                    keep(library::measure(table, options, &step.set));
                },
                |step, _| {
                    keep(reference_measure(&step.guard, &step.set));
                },
            ),
        ),
        (
            "convert",
            over_all(
                &steps,
                |step, buffers| {
                    let clauses = &mut buffers.clauses[..step.clauses.len()];
                    let (table, options) = (&step.guard.table, step.guard.options);
                    keep(library::convert(table, options, &step.set, clauses));
                },
                |step, buffers| {
                    let clauses = &mut buffers.clauses[..step.clauses.len()];
                    keep(reference_convert(&step.guard, &step.set, clauses));
                },
            ),
        ),
        (
            "write_dimacs",
            over_all(
                &steps,
                |step, buffers| {
                    let text = &mut buffers.text;
                    keep(library::write_dimacs(&step.clauses, step.variables, text));
                },
                |step, _| keep(reference_write(&step.clauses, step.variables)),
            ),
        ),
    ];

    println!(
        "a pass over {} guards; microseconds a pass, best of {ROUNDS} rounds",
        steps.len()
    );
    println!("  step            library  reference   ratio  library's share  reference's share");
    let sums = [0, 1].map(|side| each.iter().map(|(_, times)| times[side]).sum::<Duration>());
    for (name, [library, reference]) in each {
        println!(
            "  {name:12}  {:9.0}  {:9.0}  {:6.2}  {:14.1} %  {:16.1} %",
            micros(library),
            micros(reference),
            ratio(library, reference),
            100.0 * ratio(library, sums[0]),
            100.0 * ratio(reference, sums[1]),
        );
    }
    let [library, reference] = whole;
    println!(
        "  whole pass    {:9.0}  {:9.0}  {:6.2}",
        micros(library),
        micros(reference),
        ratio(library, reference)
    );
    let rate = |time: Duration| steps.len() as f64 / time.as_secs_f64();
    println!(
        "  guards a second: library {:.0}, reference {:.0}",
        rate(library),
        rate(reference)
    );
}
