//! Times converting through the library's entry beside the reference's two converters, in one run. A folder of guards
//! may be given.
//!
//! The library finds each clause by its number, from the root down, so a node above many clauses is passed once for
//! each of them. The reference's `per_clause` does the same, and writes into a lent buffer too. The reference's
//! `convert` goes by another method: back to the last node at which a clause was chosen, and on from there. It
//! allocates what it gives.

mod library;
mod tables;
mod timing;

use reference::fast_choose::fast_choose;
use reference::table::check;
use reference::{convert, per_clause, set};
use tables::{push, Guard, Shape, ALLOWANCE, COUNTS, MOST_BYTES, MOST_NODES, SYMBOLS};
use timing::{keep, micros, rate, ratio, ROUNDS};

/// A table with the set under which it is converted.
struct Formula {
    options: u32,
    table: Vec<u8>,
    set: Vec<u8>,
}

/// Converts a formula through the library's entry. Gives the clause count.
fn by_library(formula: &Formula, out: &mut [u8]) -> u32 {
    library::convert(&formula.table, formula.options, &formula.set, out)[1]
}

/// Converts a formula clause by clause by the reference. It reads the table and the set too, as the entry does.
fn by_same_method(formula: &Formula, out: &mut [u8]) -> u32 {
    let nodes = check(&formula.table, formula.options).expect("the table is right");
    let renamed = set::check(&nodes, &formula.set).expect("the set is right");
    let values = per_clause::convert(&nodes, formula.options, &renamed, out);
    values.expect("the conversion is below the ceilings")[1]
}

/// Converts a formula by the reference's walk.
fn by_backtracking(formula: &Formula) -> (Vec<u8>, u32) {
    let nodes = check(&formula.table, formula.options).expect("the table is right");
    let renamed = set::check(&nodes, &formula.set).expect("the set is right");
    let (bytes, values) = convert::clause_bytes(&nodes, formula.options, &renamed, MOST_BYTES)
        .expect("the conversion is below the ceilings");
    (bytes, values[1])
}

/// A table in which nothing is renamed.
fn plain(options: u32, table: Vec<u8>) -> Formula {
    let set = vec![0; table.len() / 5];
    Formula {
        options,
        table,
        set,
    }
}

/// A table with the set that is chosen for it.
fn chosen(options: u32, table: Vec<u8>) -> Formula {
    let choice = fast_choose(&check(&table, options).expect("a right table"), ALLOWANCE);
    let set = choice.set.into_iter().map(u8::from).collect();
    Formula {
        options,
        table,
        set,
    }
}

fn chosen_guards(guards: Vec<Guard>) -> Vec<Formula> {
    let formula = |guard: Guard| chosen(guard.options, guard.table);
    guards.into_iter().map(formula).collect()
}

/// The number of the last node.
fn last(table: &[u8]) -> usize {
    table.len() / 5 - 1
}

/// Adds the node before with itself.
fn twice(table: &mut Vec<u8>, kind: u8) {
    let below = last(table);
    push(table, kind, below, below);
}

fn not(table: &mut Vec<u8>) {
    let below = last(table);
    push(table, 3, below, 0);
}

/// A formula over symbol 1.
fn over_symbol(grow: impl FnOnce(&mut Vec<u8>)) -> Vec<Formula> {
    let mut table = vec![];
    push(&mut table, 2, 1, 0);
    grow(&mut table);
    vec![plain(1, table)]
}

const DOUBLINGS: usize = 19;

/// Ors of the node before with itself: one clause of 524,288 literals.
fn long_clause(table: &mut Vec<u8>) {
    for _ in 0..DOUBLINGS {
        twice(table, 5);
    }
}

/// 15 ands of the node before with itself, and between them ands with the symbol: 65,534 clauses of one literal.
fn many_clauses(table: &mut Vec<u8>) {
    for _ in 0..14 {
        twice(table, 4);
        let below = last(table);
        push(table, 4, below, 0);
    }
    twice(table, 4);
}

/// The same below as many pairs of nots as a table has room for.
fn clauses_below_nots(table: &mut Vec<u8>) {
    many_clauses(table);
    while last(table) + 3 <= MOST_NODES {
        not(table);
        not(table);
    }
}

/// The long clause above as many nots as a table has room for. Each literal is below all of them.
fn clause_above_nots(table: &mut Vec<u8>) {
    while last(table) + 1 + DOUBLINGS < MOST_NODES {
        not(table);
    }
    long_clause(table);
}

/// The clauses and bytes of formulas. All three ways give the same bytes.
fn agreed(name: &str, formulas: &[Formula]) -> (u32, usize) {
    let (mut clauses, mut bytes) = (0, 0);
    for formula in formulas {
        let (expected, count) = by_backtracking(formula);
        for convert in [by_library, by_same_method] {
            // What a conversion before wrote must not count.
            let mut out = vec![255; expected.len() + 4];
            assert_eq!(convert(formula, &mut out), count, "{name}");
            assert!(out.starts_with(&expected), "{name}: the bytes are the same");
            assert!(out.ends_with(&[255; 4]), "{name}: there are no more");
        }
        clauses += count;
        bytes += expected.len();
    }
    (clauses, bytes)
}

/// How often a row is timed.
#[derive(Clone, Copy, PartialEq)]
enum Often {
    InRounds,
    Once,
}

fn show(name: &str, formulas: &[Formula], often: Often) {
    let (clauses, bytes) = agreed(name, formulas);
    let (mut out, mut other) = (vec![0; MOST_BYTES], vec![0; MOST_BYTES]);
    let mut library = || {
        for formula in formulas {
            keep(by_library(formula, &mut out));
        }
    };
    let mut same = || {
        for formula in formulas {
            keep(by_same_method(formula, &mut other));
        }
    };
    let mut walk = || {
        for formula in formulas {
            keep(by_backtracking(formula));
        }
    };
    let calls: [&mut dyn FnMut(); 3] = [&mut library, &mut same, &mut walk];
    let [library, same, walk] = match often {
        Often::InRounds => timing::best(calls),
        Often::Once => timing::once(calls),
    };
    println!(
        "  {name:29}  {:6}  {clauses:7}  {bytes:8}  {:9.0}  {:9.0}  {:9.0}  {:7.1}  {:6.1}  {:6.1}  {:6.2}  {:6.2}",
        formulas.len(),
        micros(library),
        micros(same),
        micros(walk),
        rate(bytes, library),
        rate(bytes, same),
        rate(bytes, walk),
        ratio(library, same),
        ratio(library, walk),
    );
}

/// Shows how the time grows with the nodes of a shape.
fn show_growth(name: &str, shape: Shape, formula: fn(u32, Vec<u8>) -> Formula) {
    println!("converting, {name}; microseconds a call");
    println!("  nodes  clauses    bytes    library  same method  ratio  library's growth");
    let mut before: Option<f64> = None;
    for count in COUNTS {
        let formula = formula(SYMBOLS as u32, tables::grown(shape, count));
        let (clauses, bytes) = agreed(name, std::slice::from_ref(&formula));
        let (mut out, mut other) = (vec![0; bytes], vec![0; bytes]);
        let [library, same] =
            timing::best([&mut || keep(by_library(&formula, &mut out)), &mut || {
                keep(by_same_method(&formula, &mut other))
            }]);
        let growth = before.map_or(String::new(), |before| {
            format!("x {:.1}", micros(library) / before)
        });
        println!(
            "  {count:5}  {clauses:7}  {bytes:7}  {:9.1}  {:11.1}  {:5.2}  {growth}",
            micros(library),
            micros(same),
            ratio(library, same)
        );
        before = Some(micros(library));
    }
}

fn main() {
    println!("converting; all tables of a row in turn, best of {ROUNDS} rounds");
    println!("same: the reference, clause by clause; walk: the reference, by backtracking");
    println!(
        "  {:29}  {:6}  {:7}  {:8}  {:>31}  {:>23}  {:>14}",
        "", "", "", "", "microseconds a row", "MB of clauses a second", "library's time"
    );
    println!(
        "  {:29}  {:>6}  {:>7}  {:>8}  {:>9}  {:>9}  {:>9}  {:>7}  {:>6}  {:>6}  {:>6}  {:>6}",
        "",
        "tables",
        "clauses",
        "bytes",
        "library",
        "same",
        "walk",
        "library",
        "same",
        "walk",
        "/ same",
        "/ walk"
    );
    let mut rows = vec![
        ("example 10, one long clause", over_symbol(long_clause)),
        ("example 11, many clauses", over_symbol(many_clauses)),
        ("the same below 994 nots", over_symbol(clauses_below_nots)),
        ("the sample guards", chosen_guards(tables::sample())),
    ];
    if let Some(guards) = tables::given() {
        rows.push(("all given guards", chosen_guards(guards)));
    }
    for (name, formulas) in &rows {
        show(name, formulas, Often::InRounds);
    }
    let slow = over_symbol(clause_above_nots);
    show("example 10 above 1,004 nots*", &slow, Often::Once);
    println!("  * timed once");
    show_growth("chain of ands and ors", tables::chain, plain);
    show_growth("blocks with their chosen sets", tables::blocks, chosen);
}
