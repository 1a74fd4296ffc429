//! Times tidying through the library's entry beside the reference's, in one run: lists of as many clauses or literals as there
//! may be, their growth, and the clauses of real guards.
//!
//! The library compares clauses in blocks and allocates nothing. The reference keeps the literals of each clause in a hash map.
//! A list of which all clauses differ, and look alike to a quick look at them, is the library's worst: `alike` has some. The
//! library's own quick look is at signatures: `same_signatures` has lists for whoever knows how they are made.

mod library;
mod tables;
mod timing;

use reference::dimacs_writer::{MOST_CLAUSES, MOST_LITERALS, MOST_VARIABLES};
use reference::tidy::tidy;
use std::collections::{HashMap, HashSet};
use std::time::Duration;
use tables::{Guard, ALLOWANCE, MOST_BYTES};
use timing::{keep, micros, ratio, ROUNDS};

type Clause = Vec<i32>;

const CLAUSES: usize = MOST_CLAUSES as usize;
const LITERALS: usize = MOST_LITERALS as usize;
/// Calls that take longer are timed once.
const LONG: Duration = Duration::from_millis(400);
/// No more lines than numbers are told, and no line is longer.
const LONGEST_LINES: usize = MOST_BYTES / 4 * "65533\tliteral\t999998\n".len();

/// Numbers that look drawn.
struct Mixed(u64);

impl Mixed {
    fn below(&mut self, end: usize) -> usize {
        self.0 = self
            .0
            .wrapping_mul(6_364_136_223_846_793_005)
            .wrapping_add(1_442_695_040_888_963_407);
        (self.0 >> 33) as usize % end
    }

    fn literal(&mut self) -> i32 {
        let variable = 1 + self.below(MOST_VARIABLES as usize) as i32;
        match self.below(2) {
            0 => variable,
            _ => -variable,
        }
    }
}

/// Clauses of so many literals, of which one in so many repeats another one in another order.
fn drawn(count: usize, length: usize, repeats: usize) -> Vec<Clause> {
    let mut mixed = Mixed(1);
    let mut clauses: Vec<Clause> = vec![];
    for number in 0..count {
        let clause = match number > 0 && number % repeats == 0 {
            true => {
                let mut clause = clauses[mixed.below(number)].clone();
                clause.reverse();
                clause
            }
            false => (0..length).map(|_| mixed.literal()).collect(),
        };
        clauses.push(clause);
    }
    clauses
}

/// One clause with a literal for each number.
fn one_clause(literal: impl Fn(usize) -> i32) -> Vec<Clause> {
    vec![(0..LITERALS).map(literal).collect()]
}

/// Two numbers below 256 for each number below 65,536.
fn halves(number: usize) -> (i32, i32) {
    ((number % 256) as i32, (number / 256) as i32)
}

/// Lists of clauses that are all different, and that agree in something: their sum, their exclusive or, or what is left of
/// each literal by a small divisor.
fn alike(count: usize) -> [(&'static str, Vec<Clause>); 3] {
    let clauses = |clause: fn((i32, i32)) -> [i32; 3]| -> Vec<Clause> {
        (0..count)
            .map(|number| clause(halves(number)).to_vec())
            .collect()
    };
    [
        (
            "all different, of one sum",
            clauses(|(a, b)| [1 + a, 1_000 + b, 30_000 - a - b]),
        ),
        (
            "all different, of one exclusive or",
            clauses(|(a, b)| [0x400 + a, 0x800 + b, 0x4c00 ^ a ^ b]),
        ),
        (
            "all different, alike modulo 64",
            clauses(|(a, b)| [1 + 64 * a, 2 + 64 * b, 39_999]),
        ),
    ]
}

/// What a literal adds to the signature of a clause. It is `mix` of crates/sets/src/row.rt.
fn mix(seed: u64, literal: i32) -> u64 {
    let number = 2 * u64::from(literal.unsigned_abs()) + u64::from(literal < 0);
    let x = (number + 1) * (2_654_435_761 + 1_000_006 * seed) % (1 << 32);
    x * x / (1 << 17)
}

fn literals() -> impl Iterator<Item = i32> {
    (1..=MOST_VARIABLES as i32).flat_map(|variable| [variable, -variable])
}

/// Two pairs of literals. In a clause either may stand for the other: the signature by one seed stays.
type Couple = [[i32; 2]; 2];

/// So many couples. No variable is in two of them, or twice in one.
fn couples(seed: u64, count: usize) -> Vec<Couple> {
    // Literals that add little: of their pairs many add the same.
    let small: Vec<i32> = literals()
        .filter(|&literal| mix(seed, literal) < 1 << 39)
        .collect();
    let mut pairs = vec![];
    for (at, &a) in small.iter().enumerate() {
        let with = |&b: &i32| (mix(seed, a) + mix(seed, b), [a, b]);
        pairs.extend(small[..at].iter().map(with));
    }
    pairs.sort_unstable();
    let mut used = HashSet::new();
    let mut found = vec![];
    for two in pairs.windows(2).filter(|two| two[0].0 == two[1].0) {
        let couple = [two[0].1, two[1].1];
        let different: HashSet<i32> = couple.iter().flatten().map(|one| one.abs()).collect();
        if different.len() == 4 && used.is_disjoint(&different) {
            used.extend(different);
            found.push(couple);
        }
    }
    assert!(found.len() >= count, "there are {} couples", found.len());
    found.truncate(count);
    found
}

/// All clauses that take one side of each couple: they are different, and have one signature.
fn sides(couples: &[Couple]) -> Vec<Clause> {
    let sides = |number: usize| {
        let side = |(at, couple): (usize, &Couple)| couple[number >> at & 1];
        couples.iter().enumerate().flat_map(side).collect()
    };
    (0..1 << couples.len()).map(sides).collect()
}

/// So many different clauses of two literals whose signatures by one seed have the same last 16 bits.
fn of_one_slot(seed: u64, count: usize) -> Vec<Clause> {
    let slot = |literal| mix(seed, literal) as u16;
    let mut found: HashMap<u16, Vec<i32>> = HashMap::new();
    let mut clauses = vec![];
    for literal in literals() {
        let others = found.entry(0u16.wrapping_sub(slot(literal))).or_default();
        let others = others.iter().filter(|&&other| other != -literal);
        clauses.extend(others.map(|&other| vec![other, literal]));
        found.entry(slot(literal)).or_default().push(literal);
    }
    clauses.truncate(count);
    clauses
}

/// Lists of clauses that are all different, for whoever knows how signatures are made. One has clauses of one signature by the
/// first seed, so that the library tries the next. One has some clauses against each seed but the last, with which it goes to
/// the end, and then clauses of one signature by that.
fn same_signatures() -> [(&'static str, Vec<Clause>); 2] {
    let mut against_all: Vec<Clause> = (0..15).flat_map(|seed| of_one_slot(seed, 100)).collect();
    against_all.extend(sides(&couples(15, 15)));
    [
        ("32,768 clauses, one signature", sides(&couples(0, 15))),
        ("34,268 clauses, against all seeds", against_all),
    ]
}

fn bytes_of(clauses: &[Clause]) -> Vec<u8> {
    let numbers = clauses.iter().flat_map(|clause| clause.iter().chain(&[0]));
    numbers.flat_map(|number| number.to_le_bytes()).collect()
}

/// Buffers for both outputs of any list.
struct Rooms {
    out: Vec<u8>,
    changes: Vec<u8>,
}

impl Rooms {
    fn tidy(&mut self, clauses: &[u8]) -> [u32; 2] {
        library::tidy(clauses, MOST_VARIABLES, &mut self.out, &mut self.changes)
    }
}

fn by_reference(clauses: &[u8]) -> ([Vec<u8>; 2], [u32; 2]) {
    tidy(clauses, MOST_VARIABLES, [usize::MAX; 2]).expect("the clause bytes are right")
}

/// Compares what both leave of a list. Gives the numbers of lines and of kept clauses.
fn agreed(clauses: &[u8], rooms: &mut Rooms) -> [u32; 2] {
    let ([kept, lines], values) = by_reference(clauses);
    assert_eq!(rooms.tidy(clauses), values, "both give the same numbers");
    assert!(rooms.out[..kept.len()] == kept, "and the same clauses");
    assert!(rooms.changes[..lines.len()] == lines, "and the same lines");
    values
}

/// The times of both over all lists, and whether they were taken once.
fn timed(lists: &[Vec<u8>], rooms: &mut Rooms) -> ([Duration; 2], bool) {
    let mut library = || lists.iter().for_each(|list| keep(rooms.tidy(list)));
    let mut reference = || lists.iter().for_each(|list| keep(by_reference(list)));
    let first = timing::once([&mut library, &mut reference]);
    match first.iter().any(|&time| time > LONG) {
        true => (first, true),
        false => (timing::best([&mut library, &mut reference]), false),
    }
}

fn show(name: &str, clauses: &[Clause], rooms: &mut Rooms) {
    let bytes = bytes_of(clauses);
    let [lines, kept] = agreed(&bytes, rooms);
    let literals: usize = clauses.iter().map(Vec::len).sum();
    let ([library, reference], is_once) = timed(&[bytes], rooms);
    println!(
        "  {name:38}  {:7}  {literals:8}  {lines:7}  {kept:6}  {:10.0}  {:9.0}  {:6.2}{}",
        clauses.len(),
        micros(library),
        micros(reference),
        ratio(library, reference),
        if is_once { " *" } else { "" }
    );
}

/// The clause bytes of a guard, with nothing renamed or with the chosen set.
fn converted(guard: &Guard, is_chosen: bool, out: &mut [u8]) -> Vec<u8> {
    let (table, options) = (&guard.table, guard.options);
    let mut set = vec![0; table.len() / 5];
    if is_chosen {
        library::choose(table, options, ALLOWANCE, &mut set);
    }
    let [clauses, literals] = library::measure(table, options, &set);
    let room = 4 * (clauses + literals) as usize;
    library::convert(table, options, &set, &mut out[..room]);
    out[..room].to_vec()
}

fn show_guards(name: &str, guards: &[Guard], is_chosen: bool, rooms: &mut Rooms) {
    let mut out = vec![0; MOST_BYTES];
    let lists: Vec<Vec<u8>> = guards
        .iter()
        .map(|guard| converted(guard, is_chosen, &mut out))
        .collect();
    let (mut lines, mut kept) = (0, 0);
    for list in &lists {
        let [told, left] = agreed(list, rooms);
        (lines, kept) = (lines + told, kept + left);
    }
    let ([library, reference], _) = timed(&lists, rooms);
    println!(
        "  {name:38}  {kept:12}  {lines:7}  {:10.0}  {:9.0}  {:6.2}  {:10.0}",
        micros(library),
        micros(reference),
        ratio(library, reference),
        1e9 * library.as_secs_f64() / lists.len() as f64
    );
}

fn main() {
    let mut rooms = Rooms {
        out: vec![0; MOST_BYTES],
        changes: vec![0; LONGEST_LINES],
    };
    println!("tidying; microseconds a call, best of {ROUNDS} rounds, * timed once");
    println!(
        "  {:38}  clauses  literals    lines    kept     library  reference   ratio",
        "lists at a limit"
    );
    let mut same = drawn(1, 3, 1);
    same.resize(CLAUSES, same[0].clone());
    let lists = [
        ("three literals each, few repeats", drawn(CLAUSES, 3, 1_000)),
        ("three literals each, half repeats", drawn(CLAUSES, 3, 2)),
        ("three literals each, all the same", same),
        ("15 literals each, few repeats", drawn(CLAUSES, 15, 1_000)),
        ("all empty", vec![vec![]; CLAUSES]),
        ("one clause, one literal", one_clause(|_| -1)),
        (
            "one clause, 40,000 literals",
            one_clause(|number| 1 + (number % 40_000) as i32),
        ),
        (
            "one clause, a tautology at its end",
            one_clause(|number| match number + 1 < LITERALS {
                true => 1 + (number % 39_999) as i32,
                false => -1,
            }),
        ),
    ];
    for (name, clauses) in &lists {
        show(name, clauses, &mut rooms);
    }
    for (name, clauses) in alike(CLAUSES).into_iter().chain(same_signatures()) {
        show(name, &clauses, &mut rooms);
    }

    println!("  growth, three literals each, few repeats");
    for count in [
        256, 512, 1_024, 2_048, 4_096, 8_192, 16_384, 32_768, CLAUSES,
    ] {
        show(
            &format!("{count} clauses"),
            &drawn(count, 3, 1_000),
            &mut rooms,
        );
    }
    println!("  growth, all different, of one sum");
    for count in [512, 1_024, 2_048, 4_096, 8_192] {
        let [(_, clauses), ..] = alike(count);
        show(&format!("{count} clauses"), &clauses, &mut rooms);
    }

    println!(
        "  {:38}  kept clauses    lines     library  reference   ratio  ns a guard",
        "clauses of guards"
    );
    let sample = tables::sample();
    for (name, is_chosen) in [("nothing renamed", false), ("chosen sets", true)] {
        let named = format!("{} sample guards, {name}", sample.len());
        show_guards(&named, &sample, is_chosen, &mut rooms);
        if let Some(given) = tables::given() {
            let named = format!("{} guards, {name}", given.len());
            show_guards(&named, &given, is_chosen, &mut rooms);
        }
    }
}
