//! The fields of a request.

use crate::random::Random;

pub fn input(random: &mut Random, bytes: &[u8]) -> String {
    if bytes.is_empty() {
        return random.pick(&["-", "="]).to_string();
    }
    hex(bytes)
}

fn hex(bytes: &[u8]) -> String {
    bytes.iter().map(|byte| format!("{byte:02x}")).collect()
}

/// Bytes, then `repeated` so many times, then bytes.
pub fn input_in_parts(first: &[u8], repeated: &[u8], times: usize, last: &[u8]) -> String {
    let mut parts = vec![format!("{}*{times}", hex(repeated))];
    if !first.is_empty() {
        parts.insert(0, hex(first));
    }
    if !last.is_empty() {
        parts.push(hex(last));
    }
    parts.join("+")
}

/// A lent output of so many bytes.
pub fn output(random: &mut Random, length: usize) -> String {
    if length == 0 {
        return random.pick(&["-", "0"]).to_string();
    }
    length.to_string()
}

/// A buffer for an output of so many bytes: mostly exact, else short or long.
pub fn room(random: &mut Random, needed: usize) -> String {
    let length = match random.below(20) {
        0..=9 => needed,
        10 | 11 => needed + 1,
        12 => needed + random.between(2, 40),
        13 => needed.saturating_sub(4),
        14 => random.between(0, needed),
        15 => 0,
        _ => needed.saturating_sub(1),
    };
    output(random, length)
}

/// An answer part: mostly 16 bytes, else any length from 0 to 20.
pub fn answer_part(random: &mut Random, other_percent: usize) -> String {
    let length = if random.percent(other_percent) {
        random.between(0, 20)
    } else {
        16
    };
    output(random, length)
}
