//! Times choosing on tables that one pass leaves at the ceiling, so that a second one is made.
//!
//! With one node less allowed than may be renamed there is no second pass. So the time of one pass is taken on the same table, and
//! in the same run, as that of both. The reference is its fast choosing, which makes both passes too.

mod library;
mod tables;
mod timing;

use reference::fast_choose::fast_choose;
use reference::set::may_be_renamed;
use reference::table::check;
use std::time::Duration;
use tables::{ALLOWANCE, MOST_NODES};
use timing::{keep, micros, ratio, ROUNDS};

/// As many options as any of the tables has.
const OPTIONS: u32 = 1_024;
const CEILING: u32 = 65_535;

/// The set, the picks and the total.
type Chosen = (Vec<u8>, [u32; 2]);

fn by_library(table: &[u8], allowance: u32) -> Chosen {
    let mut set = vec![0; table.len() / 5];
    let values = library::choose(table, OPTIONS, allowance, &mut set);
    (set, values)
}

/// The reference reads the table too, as the entry does.
fn by_reference(table: &[u8], allowance: u32) -> Chosen {
    let nodes = check(table, OPTIONS).expect("the table is right");
    let choice = fast_choose(&nodes, allowance);
    let set = choice.set.into_iter().map(u8::from).collect();
    (set, [choice.picks, choice.total])
}

/// How many nodes of a table may be renamed.
fn may(table: &[u8]) -> u32 {
    let nodes = check(table, OPTIONS).expect("the table is right");
    let may = may_be_renamed(&nodes);
    may.into_iter().filter(|&may| may).count() as u32
}

/// Prints a line of a table. Gives the time of both passes, and how often that of one pass goes into it.
fn measure(name: &str, table: &[u8]) -> (Duration, f64) {
    let all = may(table);
    let one_less = all - 1;
    for allowance in [one_less, all, ALLOWANCE] {
        let expected = by_reference(table, allowance);
        assert_eq!(by_library(table, allowance), expected, "{name}");
    }
    let (_, [none, unchanged]) = by_reference(table, one_less);
    assert_eq!(
        (none, unchanged),
        (0, CEILING),
        "{name}: one pass picks nothing"
    );
    let (_, [picks, total]) = by_reference(table, ALLOWANCE);
    let [one, both, reference_one, reference] = timing::best([
        &mut || keep(by_library(table, one_less)),
        &mut || keep(by_library(table, ALLOWANCE)),
        &mut || keep(by_reference(table, one_less)),
        &mut || keep(by_reference(table, ALLOWANCE)),
    ]);
    println!(
        "  {name:38}  {:5}  {all:5}  {picks:5}  {total:5}  {:8.1}  {:8.1}  {:6.2}  {:9.1}  {:6.2}  {:6.2}",
        table.len() / 5,
        micros(one),
        micros(both),
        ratio(both, one),
        micros(reference),
        ratio(reference, reference_one),
        ratio(both, reference)
    );
    (both, ratio(both, one))
}

fn main() {
    println!("choosing with allowance {ALLOWANCE}; microseconds a call, best of {ROUNDS} rounds");
    println!(
        "  {:38}  {:24}  library           both:  reference  both:  library:",
        "", ""
    );
    println!(
        "  {:38}  nodes    may  picks  total  one pass      both     one       both    one  reference",
        ""
    );
    let measured = [
        ("forty conjunctions", tables::disjunction(40, 80)),
        ("an or of 100 ands", tables::disjunction(100, 200)),
        ("an or of 200 ands", tables::disjunction(200, 400)),
        ("an or of 256 ands", tables::disjunction(256, 512)),
        (
            "an or of 300 ands, options shared",
            tables::disjunction(300, 425),
        ),
        (
            "an or of 508 ands over nine options",
            tables::disjunction(508, 9),
        ),
        (
            "a mix with equivalences, nodes shared",
            tables::grown(tables::tangled, MOST_NODES),
        ),
        (
            "equivalences of a node with itself",
            tables::grown(tables::doubled, MOST_NODES),
        ),
    ]
    .map(|(name, table)| measure(name, &table));
    let longest = measured.iter().map(|&(both, _)| both).max();
    let most = measured.iter().map(|&(_, ratio)| ratio);
    println!(
        "  longest: {:.1} ms; most passes in one call: {:.2}",
        micros(longest.unwrap_or_default()) / 1e3,
        most.fold(0.0, f64::max)
    );
}
