//! Requests that convert, by themselves and after other guards.

use crate::field::{answer_part, input, output, room};
use crate::formula::{over_options, small_formula, with_damaged_records, Formula};
use crate::random::Random;
use crate::set::set;
use reference::fast_choose::fast_choose;
use reference::table;

/// Longer conversions are asked for seldom, so that most requests are quick.
pub const LONG: u64 = 20_000;
/// The largest option count, and the most that may be taken.
pub const MOST_OPTIONS: u32 = 32_000;

pub fn formula_fields(random: &mut Random, formula: &Formula) -> String {
    format!("{} {}", formula.options, input(random, &formula.table))
}

/// Of a larger table a drawn set mostly leaves too many clauses.
const LARGE: usize = 80;

/// A set for a formula: mostly drawn, sometimes the one that would be chosen.
pub fn some_set(random: &mut Random, formula: &Formula) -> Vec<u8> {
    let chosen = if formula.nodes.len() > LARGE { 70 } else { 20 };
    if random.percent(chosen) {
        let allowance = random.pick(&[1, 2, 1_024, 1_024]);
        if let Ok(nodes) = table::check(&formula.table, formula.options) {
            let chosen = fast_choose(&nodes, allowance).set;
            return chosen.into_iter().map(u8::from).collect();
        }
    }
    set(random, &formula.nodes, 15)
}

pub fn convert(random: &mut Random) -> String {
    let formula = small_formula(random);
    let set = some_set(random, &formula);
    let out = match needed(&formula, &set) {
        Some(bytes) if bytes <= LONG || random.percent(2) => room(random, bytes as usize),
        // The buffer is short, or the conversion is refused before it is looked at.
        _ => {
            let length = random.pick(&[0, 4, 64, 4_000]);
            output(random, length)
        }
    };
    let lent = formula_fields(random, &formula);
    let set = input(random, &set);
    format!("{lent} {set} {out} {}", answer_part(random, 4))
}

/// The bytes of a conversion, where it is not refused.
fn needed(formula: &Formula, set: &[u8]) -> Option<u64> {
    let nodes = table::check(&formula.table, formula.options).ok()?;
    let renamed = reference::set::check(&nodes, set).ok()?;
    let size = reference::convert::measure(&nodes, &renamed);
    if size.clauses > 65_534 || size.literals > 999_999 {
        return None;
    }
    Some(reference::convert::room(size))
}

/// Guards of one project that are converted one after the other, each with what the one before reported.
#[derive(Default)]
pub struct Chain {
    options: u32,
    taken: u32,
    /// How many guards are still to come.
    left: usize,
}

impl Chain {
    fn begin(&mut self, random: &mut Random) {
        let few = random.between(1, 6) as u32;
        // The second begins so high that its guards may go over the limit.
        self.options = random.pick(&[few, few, few, MOST_OPTIONS - few]);
        self.taken = self.options;
        self.left = random.between(2, 12);
    }

    fn next(&mut self, random: &mut Random) -> String {
        if self.left == 0 {
            self.begin(random);
        }
        self.left -= 1;
        let mut formula = over_options(random, self.options);
        if random.percent(10) {
            // By mistake the guard names a variable that is no option, or is none yet.
            let helper = random.between(self.options as usize + 1, self.taken as usize + 1);
            formula.rename_symbol(random, helper as u16);
        }
        if random.percent(7) {
            formula = with_damaged_records(random, formula);
        }
        let set = some_set(random, &formula);
        let bytes = needed(&formula, &set);
        let numbers = format!("{} {}", self.options, self.taken);
        if bytes.is_some() && self.taken <= MOST_OPTIONS {
            self.taken += set.iter().map(|&byte| u32::from(byte)).sum::<u32>();
        }
        let lent = input(random, &formula.table);
        let set = input(random, &set);
        let out = output(random, bytes.unwrap_or(64) as usize);
        format!("{numbers} {lent} {set} {out} 16")
    }
}

/// What is taken before a guard: mostly a right number, else one below the options or over the limit.
fn taken(random: &mut Random, options: u32) -> u32 {
    let more = random.between(1, 40) as u32;
    let (lower, higher) = (options.saturating_sub(more), options.saturating_add(more));
    random.pick(&[
        options,
        options,
        options,
        higher,
        higher,
        higher,
        options.saturating_add(1),
        MOST_OPTIONS - more,
        MOST_OPTIONS,
        MOST_OPTIONS,
        MOST_OPTIONS + 1,
        65_536 + options % 65_536,
        u32::MAX,
        options.saturating_sub(1),
        lower,
        0,
    ])
}

pub fn convert_after(random: &mut Random, chain: &mut Chain) -> String {
    if random.percent(40) {
        return chain.next(random);
    }
    let fields = convert(random);
    let (options, lent) = fields.split_once(' ').expect("there are several fields");
    let taken = taken(random, options.parse().expect("a number"));
    format!("{options} {taken} {lent}")
}

#[cfg(test)]
mod tests {
    use super::*;
    use reference::convert::clause_bytes;

    fn from_hex(field: &str) -> Vec<u8> {
        let digits = if field == "-" || field == "=" {
            ""
        } else {
            field
        };
        (0..digits.len())
            .step_by(2)
            .map(|at| u8::from_str_radix(&digits[at..at + 2], 16).unwrap())
            .collect()
    }

    /// The variables that the reference reports for a request. None where it refuses.
    fn reported(request: &str) -> Option<u32> {
        let fields: Vec<&str> = request.split(' ').collect();
        let (options, taken) = (fields[0].parse().unwrap(), fields[1].parse().unwrap());
        let nodes = table::check(&from_hex(fields[2]), options).ok()?;
        table::check_taken(options, taken).ok()?;
        let renamed = reference::set::check(&nodes, &from_hex(fields[3])).ok()?;
        let room = fields[4].parse().unwrap_or(0);
        let (_, values) = clause_bytes(&nodes, taken, &renamed, room).ok()?;
        Some(values[0])
    }

    #[test]
    fn a_chain_goes_on_with_what_the_guard_before_reported() {
        let (mut random, mut chain) = (Random::new(1), Chain::default());
        let (mut went_on, mut refused, mut over) = (0, 0, 0);
        for _ in 0..3_000 {
            let expected = match chain.left {
                0 => None,
                _ => Some((chain.options, chain.taken)),
            };
            let request = chain.next(&mut random);
            let numbers: Vec<u32> = request
                .split(' ')
                .take(2)
                .map(|word| word.parse().unwrap())
                .collect();
            let (options, taken) = (numbers[0], numbers[1]);
            assert_eq!(expected.unwrap_or((options, options)), (options, taken));
            match reported(&request) {
                Some(variables) => {
                    assert_eq!(chain.taken, variables);
                    went_on += usize::from(variables > taken);
                }
                None => {
                    assert_eq!(chain.taken, taken);
                    refused += 1;
                    over += usize::from(taken > MOST_OPTIONS);
                }
            }
        }
        assert!(
            went_on > 500 && refused > 100 && over > 10,
            "{went_on} {refused} {over}"
        );
    }
}
