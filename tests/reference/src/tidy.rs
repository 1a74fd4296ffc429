//! Tidying clause bytes: later ones of equal literals, tautologies and repeated clauses go, and a line tells of each.

use crate::answer::Refusal;
use crate::dimacs_writer::numbers;
use std::collections::{HashMap, HashSet};
use std::fmt::Write;

/// What becomes of a clause.
enum Fate {
    Tautology,
    /// The number of the kept clause with the same literals.
    Repeat(usize),
    /// The positions of the literals that go.
    Kept(Vec<usize>),
}

/// The literals of a clause without repeats, in an order in which a literal is beside its negation.
fn set_of(clause: &[i32]) -> Vec<i32> {
    let mut set = clause.to_vec();
    set.sort_unstable_by_key(|&literal| (literal.unsigned_abs(), literal));
    set.dedup();
    set
}

/// The positions of literals that stand before in the clause too.
fn later_ones(clause: &[i32]) -> Vec<usize> {
    let mut seen = HashSet::new();
    (0..clause.len())
        .filter(|&position| !seen.insert(clause[position]))
        .collect()
}

/// The fate of a clause. `kept` has the sets of the clauses that are kept before it, with their numbers.
fn fate(clause: &[i32], number: usize, kept: &mut HashMap<Vec<i32>, usize>) -> Fate {
    let set = set_of(clause);
    if set.windows(2).any(|two| two[0] == -two[1]) {
        return Fate::Tautology;
    }
    if let Some(&first) = kept.get(&set) {
        return Fate::Repeat(first);
    }
    let later = match set.len() == clause.len() {
        true => vec![],
        false => later_ones(clause),
    };
    kept.insert(set, number);
    Fate::Kept(later)
}

/// What is left, and the lines that tell what went.
#[derive(Default)]
struct Tidied {
    kept: Vec<u8>,
    lines: String,
    changes: u32,
    clauses: u32,
}

impl Tidied {
    fn tell(&mut self, clause: usize, word: &str, number: usize) {
        writeln!(self.lines, "{clause}\t{word}\t{number}").expect("a string takes it");
        self.changes += 1;
    }

    /// Keeps a clause, but for the literals at some positions, which rise.
    fn keep(&mut self, number: usize, clause: &[i32], later: &[usize]) {
        let mut left_out = later.iter().peekable();
        for (position, literal) in clause.iter().enumerate() {
            if left_out.next_if(|&&later| later == position).is_some() {
                self.tell(number, "literal", position);
            } else {
                self.kept.extend(literal.to_le_bytes());
            }
        }
        self.kept.extend(0i32.to_le_bytes());
        self.clauses += 1;
    }
}

/// The kept clauses' bytes and the lines, with the number of lines and of kept clauses, for two buffers of `lent` bytes.
/// Else refusal 9 or 7.
pub fn tidy(
    bytes: &[u8],
    variables: u32,
    lent: [usize; 2],
) -> Result<([Vec<u8>; 2], [u32; 2]), Refusal> {
    let (numbers, count) = numbers(bytes, variables)?;
    let mut tidied = Tidied::default();
    let mut kept = HashMap::new();
    // A zero ends each clause. Behind the last one there is nothing.
    let clauses = numbers.split(|&number| number == 0).take(count as usize);
    for (number, clause) in clauses.enumerate() {
        match fate(clause, number, &mut kept) {
            Fate::Tautology => tidied.tell(number, "tautology", 0),
            Fate::Repeat(first) => tidied.tell(number, "repeat", first),
            Fate::Kept(later) => tidied.keep(number, clause, &later),
        }
    }
    let outputs = [tidied.kept, tidied.lines.into_bytes()];
    if outputs[0].len() > lent[0] || outputs[1].len() > lent[1] {
        return Err(Refusal::new(7));
    }
    Ok((outputs, [tidied.changes, tidied.clauses]))
}
