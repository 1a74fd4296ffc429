//! Writing DIMACS text from clause bytes.

use crate::answer::Refusal;

/// The most variables, clauses and literals of a DIMACS text.
pub const MOST_VARIABLES: u32 = 40_000;
pub const MOST_CLAUSES: u32 = 65_534;
pub const MOST_LITERALS: u32 = 999_999;

/// The numbers of clause bytes and how many of them are closing zeros, or refusal 9.
pub fn numbers(bytes: &[u8], variables: u32) -> Result<(Vec<i32>, u32), Refusal> {
    let wrong = Refusal::new(9);
    if bytes.len() % 4 != 0 || variables > MOST_VARIABLES {
        return Err(wrong);
    }
    let numbers: Vec<i32> = bytes
        .chunks_exact(4)
        .map(|four| i32::from_le_bytes([four[0], four[1], four[2], four[3]]))
        .collect();
    let zeros = numbers.iter().filter(|&&number| number == 0).count();
    let literals = numbers.len() - zeros;
    let is_closed = numbers.last().map_or(true, |&number| number == 0);
    let is_declared = numbers
        .iter()
        .all(|number| number.unsigned_abs() <= variables);
    if !is_closed
        || !is_declared
        || zeros > MOST_CLAUSES as usize
        || literals > MOST_LITERALS as usize
    {
        return Err(wrong);
    }
    Ok((numbers, zeros as u32))
}

/// The text, with variables and clauses, for a buffer of `lent` bytes. Else refusal 9 or 7.
pub fn text(bytes: &[u8], variables: u32, lent: usize) -> Result<(Vec<u8>, [u32; 2]), Refusal> {
    let (numbers, clauses) = numbers(bytes, variables)?;
    let mut text = format!("p cnf {variables} {clauses}\n");
    for number in numbers {
        match number {
            0 => text.push_str("0\n"),
            literal => text.push_str(&format!("{literal} ")),
        }
    }
    if text.len() > lent {
        return Err(Refusal::new(7));
    }
    Ok((text.into_bytes(), [variables, clauses]))
}
