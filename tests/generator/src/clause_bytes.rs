//! Clause bytes, right and damaged.

use crate::random::Random;

/// Numbers of a variable count's clauses: literals and closing zeros.
pub fn numbers(random: &mut Random, variables: u32) -> Vec<i32> {
    let mut numbers = vec![];
    for _ in 0..random.pick(&[0, 1, 1, 2, 3, 5, 20]) {
        for _ in 0..random.pick(&[0, 1, 1, 2, 2, 3, 12]) {
            numbers.extend(literal(random, variables));
        }
        numbers.push(0);
    }
    numbers
}

/// A literal, where there is a variable. The first and the last are frequent.
fn literal(random: &mut Random, variables: u32) -> Option<i32> {
    if variables == 0 {
        return None;
    }
    let any = random.between(1, variables as usize) as i32;
    let magnitude = random.pick(&[any, any, 1, variables as i32]);
    Some(random.pick(&[magnitude, -magnitude]))
}

pub fn variable_count(random: &mut Random) -> u32 {
    let some = random.between(1, 40_000) as u32;
    let few = random.between(1, 12) as u32;
    random.pick(&[0, 1, few, few, few, 99, 100, some, 39_999, 40_000])
}

pub fn bytes(numbers: &[i32]) -> Vec<u8> {
    numbers
        .iter()
        .flat_map(|number| number.to_le_bytes())
        .collect()
}

/// Puts one fault into clause bytes or their variable count.
pub fn damage(random: &mut Random, variables: &mut u32, bytes: &mut Vec<u8>) {
    let over = *variables as i32 + 1;
    let number = random.pick(&[over, -over, i32::MIN, i32::MAX, 65_536, -65_536, 1 << 24]);
    let at = 4 * random.between(0, bytes.len() / 4);
    match random.below(8) {
        0 => *variables = random.pick(&[40_001, 65_535, 65_536, u32::MAX, 1 << 31]),
        1 => bytes.truncate(bytes.len() - random.below(bytes.len().min(3) + 1)),
        2 => bytes.extend(vec![0; random.between(1, 3)]),
        3 => bytes.extend(1i32.to_le_bytes()),
        4 => bytes.truncate(bytes.len().saturating_sub(4)),
        5 => *variables = variables.saturating_sub(1),
        6 if !bytes.is_empty() => {
            let place = random.below(bytes.len());
            bytes[place] = random.between(0, 255) as u8;
        }
        _ => {
            bytes.splice(at..at, number.to_le_bytes());
        }
    }
}
