//! A node file: an option count and a table, as lines of text.

use crate::answer::Refusal;

/// The bytes of the longest node file.
const LONGEST_FILE: usize = 65_536;
/// The most node lines.
const MOST_NODES: usize = 1_024;

/// A decimal without a leading zero, up to `most`.
fn number(field: &[u8], most: u32) -> Option<u32> {
    let text = std::str::from_utf8(field).ok()?;
    let is_plain = text.bytes().all(|byte| byte.is_ascii_digit());
    if !is_plain || (text.len() > 1 && text.starts_with('0')) {
        return None;
    }
    text.parse().ok().filter(|&number| number <= most)
}

fn options(line: &[u8]) -> Option<u32> {
    let fields: Vec<&[u8]> = line.split(|&byte| byte == b'\t').collect();
    match fields[..] {
        [b"options", count] => number(count, 65_535),
        _ => None,
    }
}

/// The record of the line for node `expected`.
fn record(line: &[u8], expected: usize) -> Option<[u8; 5]> {
    let fields: Vec<&[u8]> = line.split(|&byte| byte == b'\t').collect();
    let (node, kind, a, b) = match fields[..] {
        [node, kind, a, b] => (node, kind, a, b),
        _ => return None,
    };
    if number(node, 65_535)? as usize != expected || expected >= MOST_NODES {
        return None;
    }
    let kind = number(kind, 255)? as u8;
    let [a, a_high] = (number(a, 65_535)? as u16).to_le_bytes();
    let [b, b_high] = (number(b, 65_535)? as u16).to_le_bytes();
    Some([kind, a, a_high, b, b_high])
}

/// The option count and the table's bytes, or refusal 10.
pub fn read(text: &[u8]) -> Result<(u32, Vec<u8>), Refusal> {
    if text.len() > LONGEST_FILE {
        return Err(Refusal::at(10, 0));
    }
    let mut lines: Vec<&[u8]> = text.split(|&byte| byte == b'\n').collect();
    // What follows the last newline. It is a line without its end where it has a byte.
    let unended = lines.pop().filter(|rest| !rest.is_empty());
    let wrong = |line: usize| Refusal::at(10, line);
    let mut lines = lines.into_iter();
    let count = lines.next().and_then(options).ok_or(wrong(1))?;
    let mut table = vec![];
    let mut read = 1;
    for (node, line) in lines.enumerate() {
        table.extend(record(line, node).ok_or(wrong(read + 1))?);
        read += 1;
    }
    match unended {
        Some(_) => Err(wrong(read + 1)),
        None => Ok((count, table)),
    }
}
