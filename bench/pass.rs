//! The library's pass over a guard, as a host makes it: check, choose, measure, convert and write.

use crate::library;
use crate::tables::{Guard, ALLOWANCE, MOST_BYTES, MOST_NODES};

/// The longest text of a number, with the space or newline after it.
const LONGEST_WORD: usize = "-40000 ".len();
const LONGEST_HEADER: usize = "p cnf 40000 65534\n".len();

/// Buffers in which guard after guard is converted.
pub struct Buffers {
    pub set: Vec<u8>,
    pub clauses: Vec<u8>,
    pub text: Vec<u8>,
}

impl Buffers {
    pub fn new() -> Buffers {
        Buffers {
            set: vec![0; MOST_NODES],
            clauses: vec![0; MOST_BYTES],
            text: vec![0; MOST_BYTES / 4 * LONGEST_WORD + LONGEST_HEADER],
        }
    }
}

/// What a pass over a guard leaves in its buffers: so many bytes of a set and of clauses, over so many variables.
pub struct Passed {
    pub nodes: usize,
    pub bytes: usize,
    pub variables: u32,
}

/// The bytes of clauses with these totals.
pub fn room(totals: [u32; 2]) -> usize {
    4 * (totals[0] + totals[1]) as usize
}

pub fn library_pass(guard: &Guard, buffers: &mut Buffers) -> Passed {
    let (table, options) = (&guard.table, guard.options);
    library::check(table, options);
    let set = &mut buffers.set[..table.len() / 5];
    library::choose(table, options, ALLOWANCE, set);
    let bytes = room(library::measure(table, options, set));
    let clauses = &mut buffers.clauses[..bytes];
    let [variables, _] = library::convert(table, options, set, clauses);
    library::write_dimacs(clauses, variables, &mut buffers.text);
    Passed {
        nodes: set.len(),
        bytes,
        variables,
    }
}
