//! The small program: a node file in, DIMACS text or a refusal out.

use crate::answer::Refusal;
use crate::choose::choose;
use crate::convert::clause_bytes;
use crate::{dimacs_writer, node_file, table};

const ALLOWANCE: u32 = 1_024;
/// The bytes of the buffer for clauses, and of the one for text.
const BUFFER: usize = 65_536;

/// What the program prints for a whole input.
pub fn printed(input: &[u8]) -> Vec<u8> {
    text(input).unwrap_or_else(|refusal| {
        format!("refused\t{}\t{}\n", refusal.number, refusal.shown_place()).into_bytes()
    })
}

fn text(input: &[u8]) -> Result<Vec<u8>, Refusal> {
    let (options, bytes) = node_file::read(input)?;
    let nodes = table::check(&bytes, options)?;
    let set = choose(&nodes, ALLOWANCE).set;
    let (clauses, [variables, _]) = clause_bytes(&nodes, options, &set, BUFFER)?;
    let (text, _) = dimacs_writer::text(&clauses, variables, BUFFER)?;
    Ok(text)
}
