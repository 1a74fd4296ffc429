//! DIMACS texts to time, of as many literals, clauses and variables as a text may have, and the reference's reader and
//! writer of them.

use reference::{dimacs_reader, dimacs_writer};

pub const VARIABLES: u32 = dimacs_writer::MOST_VARIABLES;
pub const CLAUSES: u32 = dimacs_writer::MOST_CLAUSES;
pub const LITERALS: u32 = dimacs_writer::MOST_LITERALS;

pub fn write_by_reference(clauses: &[u8], variables: u32) -> Vec<u8> {
    let (text, _) =
        dimacs_writer::text(clauses, variables, usize::MAX).expect("the clause bytes are right");
    text
}

pub fn read_by_reference(text: &[u8]) -> Vec<u8> {
    let (clauses, _) = dimacs_reader::clause_bytes(text, usize::MAX).expect("the text is right");
    clauses
}

/// Clause bytes of mixed literals, as many in each clause as in another, or one more.
pub fn clause_bytes() -> Vec<u8> {
    let mut bytes = vec![];
    let (mut state, mut made) = (1_u64, 0);
    for clause in 1..=u64::from(CLAUSES) {
        while made < clause * u64::from(LITERALS) / u64::from(CLAUSES) {
            state = state
                .wrapping_mul(6_364_136_223_846_793_005)
                .wrapping_add(1);
            let variable = ((state >> 33) % u64::from(VARIABLES)) as i32 + 1;
            let literal = if state >> 63 == 0 {
                variable
            } else {
                -variable
            };
            bytes.extend(literal.to_le_bytes());
            made += 1;
        }
        bytes.extend(0_i32.to_le_bytes());
    }
    assert_eq!(bytes.len(), 4 * (CLAUSES + LITERALS) as usize);
    bytes
}

/// The text after 400,000 comment lines of 80 bytes each.
pub fn commented(text: &[u8]) -> Vec<u8> {
    let line = [b"c ".as_slice(), &[b'x'; 77], b"\n"].concat();
    [line.repeat(400_000).as_slice(), text].concat()
}

/// The text with 24 bytes of white space for each space or newline after the header.
pub fn spaced(text: &[u8]) -> Vec<u8> {
    let header = text
        .iter()
        .position(|&byte| byte == b'\n')
        .map_or(0, |at| at + 1);
    let mut longer = text[..header].to_vec();
    for &byte in &text[header..] {
        match byte {
            b' ' | b'\n' => longer.extend(b"     \t  \t     \r\n        "),
            byte => longer.push(byte),
        }
    }
    longer
}
