//! Requests of the line protocol, each part of which may be at fault.

use crate::clause_bytes::{self, variable_count};
use crate::conversion::{self, formula_fields, some_set, Chain};
use crate::dimacs_text;
use crate::field::{answer_part, input, input_in_parts, output, room};
use crate::formula::{any_formula, right_formula, small_formula, Formula};
use crate::node_file::node_file;
use crate::origin;
use crate::random::Random;
use crate::sat_text;
use crate::set::{may_be_renamed, set};
use crate::table::MOST_NODES;
use crate::tidying;
use reference::dimacs_writer;

/// One in this many checks has a right table, and these go through all node counts.
const RIGHT_TURN: usize = 10;

/// The request of a turn, of the operation named. None where there is no such operation. A chain of guards goes on from
/// request to request.
pub fn request(
    random: &mut Random,
    chain: &mut Chain,
    turn: usize,
    operation: &str,
) -> Option<String> {
    let fields = match operation {
        "check" => check(random, turn),
        "marks" => marks(random, turn),
        "set" => set_fields(random, turn),
        "measure" => measure(random),
        "choose" => choose(random),
        "convert" => conversion::convert(random),
        "convert_after" => conversion::convert_after(random, chain),
        "origin" => origin::origin(random),
        "origins" => origin::origins(random),
        "write_dimacs" => write_dimacs(random),
        "read_dimacs" => read_dimacs(random),
        "read_sat" => sat_text::read_sat(random, turn),
        "tidy" => tidying::tidy(random),
        "program" => program(random),
        _ => return None,
    };
    Some(format!("{operation} {fields}"))
}

/// The formula of a check in this turn.
fn checked_formula(random: &mut Random, turn: usize) -> Formula {
    match turn % RIGHT_TURN {
        0 => right_formula(random, 1 + turn / RIGHT_TURN % MOST_NODES),
        _ => any_formula(random),
    }
}

fn check(random: &mut Random, turn: usize) -> String {
    let formula = checked_formula(random, turn);
    let lent = formula_fields(random, &formula);
    format!("{lent} {}", answer_part(random, 10))
}

fn marks(random: &mut Random, turn: usize) -> String {
    let formula = checked_formula(random, turn);
    formula_fields(random, &formula)
}

fn set_fields(random: &mut Random, turn: usize) -> String {
    let formula = checked_formula(random, turn);
    let set = set(random, &formula.nodes, 60);
    let lent = formula_fields(random, &formula);
    format!("{lent} {}", input(random, &set))
}

fn measure(random: &mut Random) -> String {
    let formula = small_formula(random);
    let set = some_set(random, &formula);
    let lent = formula_fields(random, &formula);
    let set = input(random, &set);
    format!("{lent} {set} {}", answer_part(random, 4))
}

fn choose(random: &mut Random) -> String {
    let formula = small_formula(random);
    let few = random.between(2, 6) as u32;
    // With all nodes allowed that may be renamed there may be a second pass, and with one less there is none.
    let all = may_be_renamed(&formula.nodes);
    let all = all.iter().filter(|&&may| may).count() as u32;
    let one_less = all.saturating_sub(1);
    let allowance = random.pick(&[
        0,
        1,
        1,
        few,
        few,
        one_less,
        one_less,
        all,
        all,
        1_023,
        1_024,
        1_024,
        1_025,
        u32::MAX,
    ]);
    let count = formula.nodes.len();
    let length = match random.below(20) {
        0 => 0,
        1 => count - 1,
        2 => count + 1,
        3 => random.pick(&[MOST_NODES, 5 * count, 2 * count]),
        _ => count,
    };
    let lent = input(random, &formula.table);
    let set = output(random, length);
    let answer = answer_part(random, 4);
    format!("{} {allowance} {lent} {set} {answer}", formula.options)
}

fn write_dimacs(random: &mut Random) -> String {
    if random.below(500) == 0 {
        return write_at_a_limit(random);
    }
    let mut variables = variable_count(random);
    let mut bytes = clause_bytes::bytes(&clause_bytes::numbers(random, variables));
    if random.percent(45) {
        clause_bytes::damage(random, &mut variables, &mut bytes);
    }
    let needed = match dimacs_writer::text(&bytes, variables, usize::MAX) {
        Ok((text, _)) => text.len(),
        Err(_) => random.below(100),
    };
    let clauses = input(random, &bytes);
    let text = room(random, needed);
    format!("{variables} {clauses} {text} {}", answer_part(random, 4))
}

/// Clause bytes at the most clauses or literals, or one over.
fn write_at_a_limit(random: &mut Random) -> String {
    let zero = [0; 4];
    let over = random.below(2);
    let (clauses, needed) = match random.below(2) {
        0 => {
            let text = "p cnf 1 65534\n".len() + 2 * 65_534;
            (input_in_parts(&[], &zero, 65_534 + over, &[]), text)
        }
        _ => {
            let text = "p cnf 1 1\n".len() + 2 * 999_999 + 2;
            let one = 1i32.to_le_bytes();
            (input_in_parts(&[], &one, 999_999 + over, &zero), text)
        }
    };
    let text = room(random, needed);
    format!("1 {clauses} {text} 16")
}

fn read_dimacs(random: &mut Random) -> String {
    if random.below(1_000) == 0 {
        return read_at_a_limit(random);
    }
    let mut text = dimacs_text::right(random);
    match random.below(20) {
        0..=6 => {}
        7 => text.bytes = dimacs_text::noise(random, &dimacs_text::DAMAGE),
        8..=17 => dimacs_text::damage(random, &mut text.bytes, &dimacs_text::DAMAGE),
        _ => {
            for _ in 0..3 {
                dimacs_text::damage(random, &mut text.bytes, &dimacs_text::DAMAGE);
            }
        }
    }
    let lent = input(random, &text.bytes);
    let clauses = room(random, 4 * text.numbers);
    format!("{lent} {clauses} {}", answer_part(random, 4))
}

/// A text at the most clauses or literals, or one over, or with something wrong after the last.
fn read_at_a_limit(random: &mut Random) -> String {
    let over = random.below(2);
    let last: &[u8] = random.pick(&[&b"0"[..], b"0\n", b"0 0", b"", b"-1 0", b"x", b"0 x"]);
    let (text, numbers) = match random.below(2) {
        0 => {
            let header: &[u8] = b"c\np cnf 40000 65534\n";
            (input_in_parts(header, b"0\r", 65_533 + over, last), 65_534)
        }
        _ => {
            let header: &[u8] = b"p\tcnf 9 1 \n\n";
            (
                input_in_parts(header, b"9 ", 999_999 + over, last),
                1_000_000,
            )
        }
    };
    let clauses = room(random, 4 * numbers);
    format!("{text} {clauses} 16")
}

fn program(random: &mut Random) -> String {
    let formula = match random.below(40) {
        0 => any_formula(random),
        _ => small_formula(random),
    };
    let text = node_file(random, &formula);
    input(random, &text)
}

#[cfg(test)]
mod tests {
    use super::*;
    use reference::{node_file, protocol::Fields, table};
    use std::collections::BTreeMap;

    fn requests(seed: u64, operation: &str) -> Vec<String> {
        let (mut random, mut chain) = (Random::new(seed), Chain::default());
        (0..6_000)
            .map(|turn| request(&mut random, &mut chain, turn, operation).unwrap())
            .collect()
    }

    /// The field of each request at a place, without repeats.
    fn fields(requests: &[String], place: usize) -> std::collections::BTreeSet<&str> {
        requests
            .iter()
            .map(|request| request.split(' ').nth(place).unwrap())
            .collect()
    }

    #[test]
    fn a_seed_settles_the_requests() {
        for operation in [
            "check",
            "choose",
            "convert",
            "convert_after",
            "origin",
            "origins",
            "write_dimacs",
            "read_dimacs",
            "read_sat",
            "tidy",
        ] {
            assert_eq!(requests(1, operation), requests(1, operation));
            assert_ne!(requests(1, operation), requests(2, operation));
        }
    }

    #[test]
    fn every_answer_length_is_asked() {
        let requests = requests(1, "check");
        let lengths = fields(&requests, 3);
        assert!((0..=20).all(|length| lengths.contains(length.to_string().as_str())));
        assert!(lengths.contains("-"));
        assert_eq!(lengths.len(), 22);
    }

    #[test]
    fn option_counts_at_the_edges_are_asked() {
        let requests = requests(1, "check");
        let options = fields(&requests, 1);
        assert!(["0", "1", "32000", "32001", "65536", "4294967295"]
            .iter()
            .all(|edge| options.contains(edge)));
    }

    #[test]
    fn empty_and_too_long_tables_are_asked() {
        let requests = requests(1, "check");
        let tables = fields(&requests, 2);
        assert!(tables.contains("-") && tables.contains("="));
        for length in [5_120, 5_121, 5_124, 5_125] {
            assert!(
                tables.iter().any(|table| table.len() == 2 * length),
                "{length} bytes"
            );
        }
    }

    /// The option count and the table of a request. None where its node file has none.
    fn lent(request: &str) -> Option<(u32, Vec<u8>)> {
        let mut fields = Fields::new(request);
        let operation = fields.word().unwrap();
        if operation == "program" {
            return node_file::read(&fields.input().unwrap()).ok();
        }
        let options = fields.number().unwrap();
        if ["choose", "convert_after", "origin"].contains(&operation) {
            fields.number().unwrap();
        }
        Some((options, fields.input().unwrap()))
    }

    /// The number and the node of the refusal, where it is one for a record.
    fn wrong_record(table: &[u8], options: u32) -> Option<(u32, usize)> {
        let refusal = table::check(table, options).err()?;
        match refusal.number {
            3 | 12 | 13 | 14 => Some((refusal.number, refusal.place as usize)),
            _ => None,
        }
    }

    /// What node `number` is, and whether its a and its b are at fault. For an unknown kind, whether they are set.
    fn faults(table: &[u8], options: u32, number: usize) -> (&'static str, bool, bool) {
        let record = &table[5 * number..5 * number + 5];
        let a = usize::from(u16::from_le_bytes([record[1], record[2]]));
        let b = usize::from(u16::from_le_bytes([record[3], record[4]]));
        match record[0] {
            0 | 1 => ("constant", a != 0, b != 0),
            2 => ("symbol", a == 0 || a > options as usize, b != 0),
            3 => ("not", a >= number, b != 0),
            4..=7 => ("operator", a >= number, b >= number),
            _ => ("unknown", a != 0, b != 0),
        }
    }

    #[test]
    fn every_fault_of_a_record_and_every_two_are_asked_of_all_that_check_a_table() {
        for operation in [
            "check",
            "marks",
            "set",
            "measure",
            "choose",
            "convert",
            "convert_after",
            "origin",
            "origins",
            "program",
        ] {
            let (mut alone, mut followed) = (BTreeMap::new(), BTreeMap::new());
            let requests = requests(1, operation);
            for (options, mut table) in requests.iter().filter_map(|request| lent(request)) {
                if let Some((first, node)) = wrong_record(&table, options) {
                    let faults = faults(&table, options, node);
                    *alone.entry(faults).or_insert(0) += 1;
                    // With true in its place the next wrong record decides.
                    table[5 * node..5 * node + 5].copy_from_slice(&[1, 0, 0, 0, 0]);
                    let next = wrong_record(&table, options).map(|(next, _)| next);
                    *followed.entry((first, next)).or_insert(0) += 1;
                }
            }
            // Four kinds with a fault in a, in b or in both, and four ways to set the fields of an unknown kind.
            let often = alone.values().all(|&count| count > 5);
            assert!(alone.len() == 16 && often, "{operation}: {alone:?}");
            // Each of the four numbers by itself, and with each of the four behind it.
            assert_eq!(followed.len(), 20, "{operation}: {followed:?}");
        }
    }

    #[test]
    fn right_tables_of_all_sizes_are_asked() {
        let mut random = Random::new(1);
        for count in 1..=MOST_NODES {
            let turn = (count - 1) * RIGHT_TURN;
            let request = request(&mut random, &mut Chain::default(), turn, "marks").unwrap();
            assert_eq!(request.split(' ').nth(2).unwrap().len(), 10 * count);
        }
    }

    #[test]
    fn sets_are_right_and_wrong() {
        let requests = requests(1, "set");
        let sets = fields(&requests, 3);
        assert!(sets.contains("-") && sets.contains("="));
        assert!(
            sets.iter().any(|set| set.contains("0101"))
                && sets.iter().any(|set| set.contains("ff"))
        );
    }

    #[test]
    fn allowances_from_none_to_the_largest_are_asked() {
        let requests = requests(1, "choose");
        let allowances = fields(&requests, 2);
        assert!(["0", "1", "2", "1024", "4294967295"]
            .iter()
            .all(|allowance| allowances.contains(allowance)));
    }

    #[test]
    fn what_is_taken_is_asked_from_below_the_options_to_over_the_limit() {
        let requests = requests(1, "convert_after");
        let mut found = [0; 6];
        for request in &requests {
            let numbers = request.split(' ').skip(1).take(2);
            let numbers: Vec<u32> = numbers.map(|word| word.parse().unwrap()).collect();
            let (options, taken) = (numbers[0], numbers[1]);
            let kind = match taken {
                _ if options > 32_000 => 0,
                _ if taken < options => 1,
                _ if taken == options => 2,
                0..=31_999 => 3,
                32_000 => 4,
                _ => 5,
            };
            found[kind] += 1;
        }
        assert!(found.iter().all(|&count| count > 10), "{found:?}");
    }

    #[test]
    fn there_is_no_other_operation() {
        assert!(request(&mut Random::new(1), &mut Chain::default(), 1, "Check").is_none());
    }
}
