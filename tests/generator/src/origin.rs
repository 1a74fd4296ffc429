//! Requests for the origins of clauses.

use crate::conversion::{some_set, LONG, MOST_OPTIONS};
use crate::field::{answer_part, input, output, room};
use crate::formula::{many_reached, small_formula, Formula};
use crate::name_list::{self, NameList};
use crate::random::Random;
use reference::origin::{Asked, Lists};
use reference::table;

/// Lines that are longer than this are asked for seldom, and those over the second never.
const LONG_LINES: u64 = 2 * LONG;
const LONGEST_LINES: u64 = 8_000_000;

/// A formula, sometimes of a project with many options, which are named by some of its symbols.
fn formula(random: &mut Random) -> Formula {
    let mut formula = small_formula(random);
    if formula.options <= MOST_OPTIONS && random.percent(8) {
        let most = MOST_OPTIONS as usize;
        let some = random.between(formula.options as usize, most);
        let about = random.between(formula.options as usize, 100.max(formula.options as usize));
        let options = random.pick(&[about, about, about, some, some, most]);
        formula.options = options as u32;
        for _ in 0..random.below(8).min(options) {
            let symbol = random.between(1, options);
            let near = 32 * (symbol / 32) + random.below(3);
            let symbol = random.pick(&[symbol, options, near.clamp(1, options)]);
            formula.rename_symbol(random, symbol as u16);
        }
    }
    formula
}

/// A formula and a set. Now and then all nodes are renamed that may be, and there are many.
fn formula_and_set(random: &mut Random) -> (Formula, Vec<u8>) {
    if random.percent(2) {
        let formula = many_reached(random);
        if let Ok(nodes) = table::check(&formula.table, formula.options) {
            let may = reference::set::may_be_renamed(&nodes);
            return (formula, may.into_iter().map(u8::from).collect());
        }
    }
    let formula = formula(random);
    let set = some_set(random, &formula);
    (formula, set)
}

/// The lists of a request, each of which may be at fault.
fn name_lists(random: &mut Random, options: u32, set: &[u8]) -> (NameList, NameList) {
    let helpers = set.iter().filter(|&&byte| byte == 1).count();
    // Too many options are refused before. A few names do.
    let count = match options <= MOST_OPTIONS {
        true => options as usize,
        false => 2,
    };
    let mut lists = (
        name_list::right(random, count),
        name_list::right(random, helpers),
    );
    if random.percent(13) {
        name_list::damage(random, &mut lists.0);
    }
    if random.percent(13) {
        name_list::damage(random, &mut lists.1);
    }
    match random.below(100) {
        0 | 1 => (lists.1, lists.0),
        _ => lists,
    }
}

/// The number of a clause: mostly one of so many, else one that is not below them.
fn clause_number(random: &mut Random, clauses: u32) -> u32 {
    let some = random.below(clauses.max(1) as usize) as u32;
    let last = clauses.saturating_sub(1);
    match random.below(35) {
        0..=11 => some,
        12..=20 => last,
        21..=23 => last.saturating_sub(1),
        24..=28 => 0,
        29 => clauses,
        30 => clauses.saturating_add(1),
        31 => clauses.saturating_add(some),
        // Its low half is the number of a clause.
        32 => 65_536 + some,
        33 => random.pick(&[65_534, 65_535, 1 << 31, u32::MAX - 1]),
        _ => u32::MAX,
    }
}

/// Fields of a request behind the option count: about one clause where `is_one`, else about all.
fn fields(random: &mut Random, is_one: bool) -> String {
    let (formula, set) = formula_and_set(random);
    let options = formula.options;
    let (option_list, helper_list) = name_lists(random, options, &set);
    let right = table::check(&formula.table, options)
        .and_then(|nodes| Ok((reference::set::check(&nodes, &set)?, nodes)));
    let clauses = match &right {
        Ok((renamed, nodes)) => reference::convert::measure(nodes, renamed).clauses,
        Err(_) => random.below(9) as u64,
    };
    let clauses = u32::try_from(clauses).unwrap_or(u32::MAX);
    let wanted = match is_one {
        true => Some(clause_number(random, clauses)),
        false => None,
    };

    let (option_names, helper_names) = (option_list.bytes(), helper_list.bytes());
    let lists = Lists {
        options: &option_names,
        helpers: &helper_names,
    };
    let asked = right.as_ref().ok().and_then(|(renamed, nodes)| {
        let size = reference::convert::measure(nodes, renamed);
        let is_long = size.clauses.saturating_add(size.literals) > LONG;
        match is_long && !random.percent(4) {
            true => None,
            false => Asked::new(nodes, options, renamed, wanted, lists).ok(),
        }
    });
    let out = match asked.map(|asked| asked.length()) {
        Some(length) if length <= LONG_LINES => room(random, length as usize),
        Some(length) if length <= LONGEST_LINES && random.percent(50) => {
            room(random, length as usize)
        }
        // The buffer is short, or the request is refused before it is looked at.
        _ => {
            let length = random.pick(&[0, 1, 12, 64, 4_000]);
            output(random, length)
        }
    };
    let number = wanted.map_or(String::new(), |clause| format!("{clause} "));
    let table = input(random, &formula.table);
    let set = input(random, &set);
    let option_names = option_list.field(random);
    let helper_names = helper_list.field(random);
    let answer = answer_part(random, 4);
    format!("{options} {number}{table} {set} {option_names} {helper_names} {out} {answer}")
}

pub fn origin(random: &mut Random) -> String {
    fields(random, true)
}

pub fn origins(random: &mut Random) -> String {
    fields(random, false)
}

#[cfg(test)]
mod tests {
    use super::*;
    use reference::protocol::Fields;
    use std::collections::BTreeMap;

    /// What a request lends, read again.
    struct Read {
        options: u32,
        clause: Option<u32>,
        table: Vec<u8>,
        set: Vec<u8>,
        names: [Vec<u8>; 2],
        room: usize,
        answer: usize,
    }

    fn read(request: &str, is_one: bool) -> Read {
        let mut fields = Fields::new(request);
        Read {
            options: fields.number().unwrap(),
            clause: is_one.then(|| fields.number().unwrap()),
            table: fields.input().unwrap(),
            set: fields.input().unwrap(),
            names: [fields.input().unwrap(), fields.input().unwrap()],
            room: fields.output().unwrap().len(),
            answer: fields.answer_part().unwrap().len(),
        }
    }

    /// The number by which the reference refuses with an answer part of 16 bytes, so much room and this clause. 0 where
    /// it accepts. Without a room this is not looked at.
    fn number(read: &Read, clause: Option<u32>, room: Option<usize>) -> u32 {
        let lists = Lists {
            options: &read.names[0],
            helpers: &read.names[1],
        };
        let answer = table::check(&read.table, read.options).and_then(|nodes| {
            let renamed = reference::set::check(&nodes, &read.set)?;
            let asked = Asked::new(&nodes, read.options, &renamed, clause, lists)?;
            room.map_or(Ok(()), |room| asked.lines(room).map(|_| ()))
        });
        answer.err().map_or(0, |refusal| refusal.number)
    }

    fn reads(is_one: bool) -> Vec<Read> {
        let mut random = Random::new(1);
        (0..6_000)
            .map(|_| read(&fields(&mut random, is_one), is_one))
            .collect()
    }

    #[test]
    fn every_answer_is_asked_for() {
        for is_one in [true, false] {
            let mut counts: BTreeMap<u32, usize> = BTreeMap::new();
            for read in reads(is_one) {
                let found = match read.answer {
                    16 => number(&read, read.clause, Some(read.room)),
                    _ => 11,
                };
                *counts.entry(found).or_default() += 1;
            }
            let mut expected = vec![0, 1, 2, 3, 4, 5, 6, 7, 11, 12, 13, 14, 15, 16];
            expected.retain(|&number| is_one || number != 15);
            let found: Vec<u32> = counts.keys().copied().collect();
            let often = counts.values().all(|&count| count > 8);
            assert!(found == expected && often, "{counts:?}");
            assert!(counts[&0] > 1_500, "{counts:?}");
        }
    }

    /// A number over the clauses, a wrong list and a short buffer: each by itself, each with another, and all of them.
    #[test]
    fn faults_meet_in_one_request() {
        let mut met: BTreeMap<[bool; 3], usize> = BTreeMap::new();
        for read in reads(true) {
            let own = number(&read, read.clause, None);
            let whole = number(&read, None, None);
            // The shortest line has 13 bytes.
            if [0, 15, 16].contains(&own) {
                *met.entry([own == 15, whole == 16, read.room < 13])
                    .or_default() += 1;
            }
        }
        let often = met.values().all(|&count| count > 50);
        assert!(met.len() == 8 && often, "{met:?}");
    }

    #[test]
    fn clauses_at_the_edges_are_asked_for() {
        let mut found: BTreeMap<i64, usize> = BTreeMap::new();
        let (mut most, mut empty, mut both) = (0, 0, 0);
        for read in reads(true) {
            let clause = read.clause.unwrap();
            let nodes = match table::check(&read.table, read.options) {
                Ok(nodes) => nodes,
                Err(_) => continue,
            };
            let renamed = match reference::set::check(&nodes, &read.set) {
                Ok(renamed) => renamed,
                Err(_) => continue,
            };
            let size = reference::convert::measure(&nodes, &renamed);
            if size.clauses > 65_534 || size.literals > 50_000 {
                continue;
            }
            let marks = reference::polarity::marks(&nodes);
            both += (0..nodes.len())
                .filter(|&node| renamed[node] && marks[node].number() == 3)
                .count();
            let mut k = 0;
            reference::convert::each_clause(&nodes, read.options, &renamed, |literals| {
                empty += usize::from(k == clause && literals.is_empty());
                k += 1;
            });
            most += usize::from(clause == u32::MAX);
            *found
                .entry((i64::from(clause) - size.clauses as i64).clamp(-2, 2))
                .or_default() += 1;
        }
        let often = found.values().all(|&count| count > 100);
        assert!(found.len() == 5 && often, "{found:?}");
        assert!(
            most > 100 && empty > 100 && both > 300,
            "{most} {empty} {both}"
        );
    }

    #[test]
    fn long_lists_are_asked_for() {
        let mut random = Random::new(1);
        let requests: Vec<String> = (0..6_000).map(|_| fields(&mut random, false)).collect();
        let longest = requests.iter().map(String::len).max();
        let all: usize = requests.iter().map(String::len).sum();
        let many = requests
            .iter()
            .filter(|request| read(request, false).options == MOST_OPTIONS)
            .count();
        let named = |request: &&String| {
            let read = read(request, false);
            let high = |node: &[u8]| node[0] == 2 && u16::from_le_bytes([node[1], node[2]]) > 1_000;
            number(&read, None, None) == 0 && read.table.chunks(5).any(high)
        };
        let named = requests.iter().filter(named).count();
        assert!(many > 60 && named > 60, "{many} {named}");
        let renamed = |request: &&String| {
            let read = read(request, false);
            let helpers = read.set.iter().filter(|&&byte| byte == 1).count();
            helpers > 64 && number(&read, None, None) == 0
        };
        let renamed = requests.iter().filter(renamed).count();
        assert!(renamed > 40, "{renamed}");
        // They are repeated names, so that requests stay short.
        assert!(
            longest < Some(1 << 20) && all < 30_000_000,
            "{longest:?} {all}"
        );
    }
}
