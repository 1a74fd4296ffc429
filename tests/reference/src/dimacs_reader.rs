//! Reading DIMACS text of clauses. A text that is not accepted is refused by 8.

use crate::answer::Refusal;
use crate::cursor::Cursor;
use crate::dimacs_writer::{MOST_CLAUSES, MOST_LITERALS, MOST_VARIABLES};

/// The numbers after the header. White space parts them.
fn take_numbers(cursor: &mut Cursor, variables: u32, clauses: u32) -> Result<Vec<i32>, Refusal> {
    let mut numbers = vec![];
    let (mut closed, mut literals) = (0, 0);
    // The header's newline parts it from the first number.
    let mut is_parted = true;
    loop {
        is_parted |= cursor.take_white_space();
        let byte = match cursor.next() {
            Some(byte) if is_parted && closed < clauses => byte,
            // The text's end, a byte that does not part two numbers, or a number too many.
            _ => break,
        };
        if byte == b'0' {
            cursor.take();
            numbers.push(0);
            closed += 1;
        } else if literals < MOST_LITERALS {
            numbers.push(take_literal(cursor, variables)?);
            literals += 1;
        } else {
            break;
        }
        is_parted = false;
    }
    // No literal is taken after the last declared clause. So where one is left unclosed, a clause is missing.
    if cursor.next().is_some() || closed != clauses {
        return cursor.refused();
    }
    Ok(numbers)
}

fn take_literal(cursor: &mut Cursor, variables: u32) -> Result<i32, Refusal> {
    let is_negative = cursor.next() == Some(b'-');
    if is_negative {
        // With no variable nothing could follow the sign.
        if variables == 0 {
            return cursor.refused();
        }
        cursor.take();
    }
    let magnitude = cursor.take_number(1, variables)? as i32;
    Ok(if is_negative { -magnitude } else { magnitude })
}

/// The clause bytes, with the declared variables and clauses, for a buffer of `lent` bytes.
/// Else refusal 8 or 7.
pub fn clause_bytes(text: &[u8], lent: usize) -> Result<(Vec<u8>, [u32; 2]), Refusal> {
    let mut cursor = Cursor::new(text, 8);
    let [variables, clauses] = cursor.take_header(b"cnf", [MOST_VARIABLES, MOST_CLAUSES])?;
    let numbers = take_numbers(&mut cursor, variables, clauses)?;
    if 4 * numbers.len() > lent {
        return Err(Refusal::new(7));
    }
    let bytes = numbers
        .iter()
        .flat_map(|number| number.to_le_bytes())
        .collect();
    Ok((bytes, [variables, clauses]))
}
