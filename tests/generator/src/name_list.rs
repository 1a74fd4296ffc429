//! Lists of names, right and damaged.

use crate::field::{input, input_in_parts};
use crate::random::Random;

/// A longer list is mostly made of names that are repeated, so that its request is short.
const LONG: usize = 300;

/// Names, then names that are repeated so many times, then names. Each has a newline behind it.
pub struct NameList {
    first: Vec<u8>,
    repeated: Vec<u8>,
    times: usize,
    last: Vec<u8>,
}

impl NameList {
    pub fn bytes(&self) -> Vec<u8> {
        let repeated = self.repeated.repeat(self.times);
        [&self.first[..], &repeated, &self.last].concat()
    }

    pub fn field(&self, random: &mut Random) -> String {
        if self.times == 0 {
            return input(random, &self.bytes());
        }
        input_in_parts(&self.first, &self.repeated, self.times, &self.last)
    }
}

/// Any byte but tab and newline.
fn any_byte(random: &mut Random) -> u8 {
    match random.below(254) as u8 {
        byte @ 0..=8 => byte,
        byte => byte + 2,
    }
}

fn name(random: &mut Random) -> Vec<u8> {
    let length = match random.below(100) {
        0 => 300,
        1..=9 => random.between(7, 40),
        _ => random.between(1, 5),
    };
    let is_any = random.percent(30);
    let byte = |random: &mut Random| match is_any {
        true => any_byte(random),
        false => random.pick(b"ABCHxyz_0123!"),
    };
    (0..length).map(|_| byte(random)).collect()
}

fn names(random: &mut Random, count: usize) -> Vec<u8> {
    let mut names = vec![];
    for _ in 0..count {
        names.extend(name(random));
        names.push(b'\n');
    }
    names
}

/// So many names, of which no two are the same.
fn numbered(random: &mut Random, count: usize) -> Vec<u8> {
    let step = random.pick(&[1, 7, 11]);
    let name = |number: usize| format!("{}\n", step * number + 8).into_bytes();
    (0..count).flat_map(name).collect()
}

/// A right list of so many names.
pub fn right(random: &mut Random, count: usize) -> NameList {
    let mut list = NameList {
        first: vec![],
        repeated: vec![],
        times: 0,
        last: vec![],
    };
    if count <= LONG || random.percent(3) {
        list.first = match count <= LONG && random.percent(70) {
            true => names(random, count),
            false => numbered(random, count),
        };
        return list;
    }
    // After an odd number of names they come again, so that a name at a wrong place is mostly another one.
    let (before, period) = (random.below(70), 2 * random.between(8, 60) + 1);
    list.first = names(random, before);
    list.repeated = names(random, period);
    // One name or more is left.
    list.times = (count - before - 1) / period;
    let left = count - before - list.times * period;
    list.last = names(random, left);
    list
}

/// Where the names of a part begin, and where its last one ends.
fn ends(part: &[u8]) -> Vec<usize> {
    let newlines = (0..part.len()).filter(|&at| part[at] == b'\n');
    std::iter::once(0)
        .chain(newlines.map(|at| at + 1))
        .collect()
}

/// Puts a fault into a right list. After it the list is wrong for its number of names.
pub fn damage(random: &mut Random, list: &mut NameList) {
    let is_first = list.last.is_empty() || random.percent(30);
    let is_end = !is_first || list.last.is_empty();
    let part = match is_first {
        true => &mut list.first,
        false => &mut list.last,
    };
    let ends = ends(part);
    let edge = random.pick(&ends);
    // A name of the part, where it has one.
    let chosen = match ends.len() {
        1 => None,
        count => {
            let any = random.below(count - 1);
            let at = random.pick(&[0, count - 2, any]);
            Some((ends[at], ends[at + 1]))
        }
    };
    match (random.below(14), chosen) {
        // A name is missing.
        (0 | 1, Some((start, end))) => {
            part.drain(start..end);
        }
        // A name is empty, and there are as many newlines as there should be.
        (2 | 3, Some((start, end))) => {
            part.drain(start..end - 1);
        }
        // A tab in a name, or in place of it, or in place of its newline.
        (4, Some((start, end))) => {
            let any = random.between(start, end - 1);
            let at = random.pick(&[start, end - 1, any]);
            part.insert(at, b'\t');
        }
        (5, Some((start, end))) => {
            part.splice(start..end - 1, [b'\t']);
        }
        (6, Some((_, end))) => part[end - 1] = b'\t',
        // Two names are one.
        (7, Some((_, end))) => part[end - 1] = random.pick(b"\r x\0"),
        // The last name has no newline.
        (8 | 9, Some(_)) if is_end => {
            part.pop();
        }
        // Nothing, or next to nothing.
        (10, Some(_)) => {
            *list = NameList {
                first: random.pick(&[&b""[..], b"\n", b"x"]).to_vec(),
                repeated: vec![],
                times: 0,
                last: vec![],
            }
        }
        // Something stands behind the last newline.
        (11, _) if is_end => part.push(random.pick(b"xy!\t")),
        // A name too many, which may be empty.
        (12, _) => {
            part.splice(edge..edge, [b'\n']);
        }
        _ => {
            let name = names(random, 1);
            part.splice(edge..edge, name);
        }
    }
}

#[cfg(test)]
mod tests {
    use super::*;
    use reference::origin::{Asked, Lists};
    use reference::table::Node;

    /// Whether the reference takes a list for so many options.
    fn is_right(list: &NameList, count: usize) -> bool {
        let bytes = list.bytes();
        let lists = Lists {
            options: &bytes,
            helpers: &[],
        };
        Asked::new(&[Node::True], count as u32, &[false], None, lists).is_ok()
    }

    #[test]
    fn right_lists_are_right_and_damaged_ones_are_not() {
        let mut random = Random::new(1);
        for turn in 0..3_000 {
            let count = match turn % 50 {
                0 => random.pick(&[31_999, 32_000]),
                1 => random.between(200, 3_000),
                few => few,
            };
            let mut list = right(&mut random, count);
            assert!(is_right(&list, count), "{count}: {:?}", list.bytes());
            damage(&mut random, &mut list);
            assert!(!is_right(&list, count), "{count}: {:?}", list.bytes());
        }
    }

    #[test]
    fn names_have_every_byte_but_two() {
        let mut random = Random::new(2);
        let mut seen = [false; 256];
        for _ in 0..2_000 {
            for byte in name(&mut random) {
                seen[usize::from(byte)] = true;
            }
        }
        let missing: Vec<usize> = (0..256).filter(|&byte| !seen[byte]).collect();
        assert_eq!(missing, [9, 10]);
    }

    #[test]
    fn a_field_has_the_bytes_of_its_list() {
        let mut random = Random::new(3);
        for count in [0, 1, 40, 301, 32_000] {
            let list = right(&mut random, count);
            let field = list.field(&mut random);
            let read = reference::protocol::Fields::new(&field).input();
            assert_eq!(read, Ok(list.bytes()));
        }
    }
}
