//! Requests for tidying clause bytes.

use crate::clause_bytes::{self, variable_count};
use crate::field::{answer_part, input, input_in_parts, output};
use crate::random::Random;
use reference::dimacs_writer::{MOST_CLAUSES, MOST_LITERALS, MOST_VARIABLES};
use reference::tidy::tidy as tidied;

type Clause = Vec<i32>;

/// Clauses may be compared in blocks of so many.
const BLOCK: usize = 1_024;
/// Clause counts of long lists: at the edges of blocks, and between them.
const COUNTS: [usize; 10] = [
    BLOCK - 1,
    BLOCK,
    BLOCK + 1,
    2 * BLOCK - 1,
    2 * BLOCK,
    2 * BLOCK + 1,
    3_000,
    3 * BLOCK,
    3 * BLOCK + 1,
    5_000,
];
/// Of each two variables of a clause of a long list there are so many.
const NUMBERED: usize = 256;
/// The library looks clauses up by signatures, which fall into so many slots.
const SLOTS: usize = 65_536;
/// Where clauses of a block are compared in vain more often than this, it goes on with the signatures of another seed.
#[cfg(test)]
const IN_VAIN: usize = 4_096;
const SEEDS: usize = 16;
/// So many clauses of one slot in a block are compared often enough.
const RUN: usize = 128;

fn shuffled(random: &mut Random, clause: &[i32]) -> Clause {
    let mut clause = clause.to_vec();
    for place in (1..clause.len()).rev() {
        clause.swap(place, random.between(0, place));
    }
    clause
}

/// Puts some of the literals in once more, anywhere.
fn repeat_literals(random: &mut Random, clause: &mut Clause) {
    if clause.is_empty() {
        return;
    }
    for _ in 0..random.between(1, 3) {
        let literal = random.pick(clause);
        clause.insert(random.between(0, clause.len()), literal);
    }
}

/// A clause that has the same literals as another one: as it is, in another order, or with some of them repeated.
fn same(random: &mut Random, clause: &[i32]) -> Clause {
    let mut clause = match random.below(3) {
        0 => clause.to_vec(),
        _ => shuffled(random, clause),
    };
    if random.percent(30) {
        repeat_literals(random, &mut clause);
    }
    clause
}

/// A clause that has almost the same literals as another one: one more, one less, one in place of another, or one negated.
fn almost(random: &mut Random, clause: &[i32], literal: i32) -> Clause {
    let mut clause = same(random, clause);
    let place = random.below(clause.len().max(1));
    match random.below(4) {
        1 if !clause.is_empty() => {
            clause.remove(place);
        }
        2 if !clause.is_empty() => clause[place] = literal,
        3 if !clause.is_empty() => clause[place] = -clause[place],
        _ => clause.insert(place, literal),
    }
    clause
}

/// A clause with a literal of another one and its negation, near to it or far.
fn tautology(random: &mut Random, clause: &[i32], literal: i32) -> Clause {
    let mut clause = clause.to_vec();
    if clause.is_empty() {
        clause.push(literal);
    }
    let negated = -random.pick(&clause);
    let end = clause.len();
    let any = random.between(0, end);
    clause.insert(random.pick(&[0, end, any]), negated);
    if random.percent(30) {
        repeat_literals(random, &mut clause);
    }
    clause
}

/// A literal of few variables, so that clauses agree often. The first and the last variable are among them.
fn literal(random: &mut Random, variables: u32, few: usize) -> i32 {
    let near = random.between(1, few.min(variables as usize)) as i32;
    let magnitude = random.pick(&[near, near, near, 1, variables as i32]);
    random.pick(&[magnitude, magnitude, -magnitude])
}

/// A short list, in which clauses are much like those before.
fn short(random: &mut Random, variables: u32) -> Vec<Clause> {
    let mut clauses: Vec<Clause> = vec![];
    let few = random.pick(&[1, 2, 3, 5, 9]);
    for _ in 0..random.pick(&[0, 1, 2, 3, 4, 6, 10, 30, 100]) {
        // With no variable there are only empty clauses.
        if variables == 0 {
            clauses.push(vec![]);
            continue;
        }
        let one = literal(random, variables, few);
        let before = match clauses.is_empty() {
            true => vec![],
            false => clauses[random.below(clauses.len())].clone(),
        };
        clauses.push(match random.below(12) {
            0 => vec![],
            1..=3 => same(random, &before),
            4 | 5 => almost(random, &before, one),
            6 => tautology(random, &before, one),
            _ => {
                let length = random.pick(&[0, 1, 1, 2, 2, 3, 3, 4, 8, 20]);
                (0..length)
                    .map(|_| literal(random, variables, few))
                    .collect()
            }
        });
    }
    clauses
}

/// How the clauses of a long list look, which are all different.
#[derive(Clone, Copy, PartialEq)]
enum Shape {
    /// Two of the first variables.
    First,
    /// Two of the last variables, negated.
    Last,
    /// Three variables of one sum.
    Sum,
    /// Three variables of one exclusive or.
    ExclusiveOr,
    /// Three variables that leave the same, divided by 64.
    Remainders,
}

/// The clause of a number below 65,536. Those of three variables have some that are almost the last.
fn numbered(number: usize, variables: u32, shape: Shape) -> Clause {
    let [a, b] = [number % NUMBERED, number / NUMBERED].map(|half| half as i32);
    let pair = [1 + a, 1 + NUMBERED as i32 + b];
    match shape {
        Shape::First => pair.to_vec(),
        Shape::Last => pair
            .map(|variable| variable - variables as i32 - 1)
            .to_vec(),
        Shape::Sum => vec![1 + a, 1_000 + b, 39_000 - a - b],
        Shape::ExclusiveOr => vec![0x400 + a, 0x800 + b, 0x8c00 ^ a ^ b],
        Shape::Remainders => vec![-1 - 64 * a, 2 + 64 * b, 39_999],
    }
}

/// The number of a clause before another one: the first, the last, one at the edge of a block, one a block before, or any.
fn before(random: &mut Random, number: usize) -> usize {
    let any = random.below(number);
    let edge = BLOCK * random.between(0, number / BLOCK);
    let far = number.saturating_sub(BLOCK * random.between(1, 2));
    let found = match random.below(8) {
        0 => 0,
        1 => number - 1,
        2 => edge,
        3 => edge + 1,
        4 => edge.saturating_sub(1),
        5 => far,
        6 => far.saturating_sub(1),
        _ => any,
    };
    found.min(number - 1)
}

/// What a literal adds to the slot of its clause: `mix` of crates/sets/src/row.rt.
fn slot(seed: usize, literal: i32) -> usize {
    let number = 2 * u64::from(literal.unsigned_abs()) + u64::from(literal < 0);
    let x = (number + 1) * (2_654_435_761 + 1_000_006 * seed as u64) % (1 << 32);
    (x * x / (1 << 17)) as usize % SLOTS
}

/// Clauses of two literals that fall into one slot by a seed: all different, and tens of thousands where there are most variables.
fn of_one_slot(seed: usize, variables: u32, one: usize) -> Vec<Clause> {
    let mut found = vec![vec![]; SLOTS];
    let mut clauses = vec![];
    for variable in 1..=variables as i32 {
        for literal in [variable, -variable] {
            let others: &Vec<i32> = &found[(one + SLOTS - slot(seed, literal)) % SLOTS];
            clauses.extend(others.iter().map(|&other| vec![other, literal]));
        }
        for literal in [variable, -variable] {
            found[slot(seed, literal)].push(literal);
        }
    }
    clauses
}

/// A list in which many clauses fall into one slot, by the first seed or by one seed after the other up to the last.
fn of_full_slots(random: &mut Random) -> Vec<Clause> {
    let seeds = random.pick(&[1, SEEDS]);
    let sets: Vec<Vec<Clause>> = (0..seeds)
        .map(|seed| of_one_slot(seed, MOST_VARIABLES, random.below(SLOTS)))
        .collect();
    let count = random.pick(&[3 * BLOCK, 5 * BLOCK + 1]);
    long(random, count, |number| {
        let (run, place) = (number / RUN, number % RUN);
        sets[run % seeds][run / seeds * RUN + place].clone()
    })
}

/// A list of so many clauses, of which some are repeats of others far before. Without repeats they are those of their numbers.
fn long(random: &mut Random, count: usize, numbered: impl Fn(usize) -> Clause) -> Vec<Clause> {
    // Of a thousand clauses so many are like another one.
    let density = random.pick(&[0, 2, 2, 20, 100, 500, 900]);
    let mut clauses: Vec<Clause> = Vec::with_capacity(count);
    for number in 0..count {
        let at_edge = (number + 1) % BLOCK <= 2 || number + 1 == count;
        let is_like = random.below(1_000) < density || (at_edge && random.percent(40));
        let mut own = numbered(number);
        clauses.push(match is_like && number > 0 {
            false => own,
            true => {
                let other = clauses[before(random, number)].clone();
                match random.below(20) {
                    0..=13 => same(random, &other),
                    14 => almost(random, &other, own[0]),
                    15 | 16 => tautology(random, &other, own[1]),
                    17 => vec![],
                    18 => {
                        repeat_literals(random, &mut own);
                        own
                    }
                    _ => tautology(random, &own, own[0]),
                }
            }
        });
    }
    clauses
}

/// A list with a clause of thousands of literals, and others that are much like it.
fn with_long_clause(random: &mut Random, variables: u32) -> Vec<Clause> {
    let length = random.pick(&[500, 1_024, 4_000, 20_000]);
    let few = random.pick(&[3, 50, 40_000]);
    // Mostly all literals have one sign, so that it is no tautology.
    let mixed = random.percent(20);
    let mut first: Clause = (0..length)
        .map(|_| literal(random, variables, few))
        .map(|literal| if mixed { literal } else { literal.abs() })
        .collect();
    if random.percent(50) {
        first.sort_unstable();
        first.dedup();
    }
    let mut clauses = vec![first.clone()];
    for _ in 0..random.between(0, 2) {
        clauses.push(match random.below(3) {
            0 => almost(random, &first, 1),
            _ => same(random, &first),
        });
    }
    clauses
}

fn bytes_of(clauses: &[Clause]) -> Vec<u8> {
    let mut numbers = vec![];
    for clause in clauses {
        numbers.extend(clause);
        numbers.push(0);
    }
    clause_bytes::bytes(&numbers)
}

/// Both outputs, for so many bytes: mostly exact, else one of them or both are short or long.
fn rooms(random: &mut Random, needed: [usize; 2]) -> String {
    let [out, changes] = needed;
    let less = needed.map(|length| length.saturating_sub(1));
    let lengths = match random.below(20) {
        0..=8 => needed,
        9 | 10 => [less[0], changes],
        11 | 12 => [out, less[1]],
        13 => less,
        14 => [0, changes],
        15 => [out, 0],
        _ => needed.map(|length| {
            let more = length + random.between(1, 40);
            random.pick(&[length, length.saturating_sub(1), length / 2, more])
        }),
    };
    lengths.map(|length| output(random, length)).join(" ")
}

/// How many bytes each output needs. Where the clause bytes are refused it is any number.
fn needed(random: &mut Random, bytes: &[u8], variables: u32) -> [usize; 2] {
    match tidied(bytes, variables, [usize::MAX; 2]) {
        Ok(([kept, lines], _)) => [kept.len(), lines.len()],
        Err(_) => [random.below(60), random.below(60)],
    }
}

/// As many clauses or literals as there may be, or more. The same numbers are there over and over.
fn at_a_limit(random: &mut Random) -> String {
    let over = random.below(2);
    let [clauses, literals] = [MOST_CLAUSES as usize, MOST_LITERALS as usize];
    let last = MOST_VARIABLES as i32;
    let (first, repeated, times, end) = match random.below(4) {
        0 => (vec![], vec![0], clauses - 1 + over, vec![0]),
        1 => (vec![], vec![last], literals - 1 + over, vec![-1, 0]),
        2 => (vec![1], vec![-1, last], literals / 2 + over, vec![0]),
        _ => {
            // Almost as many literals as there may be, too.
            let clause = (1..=15).chain([0]).collect();
            (vec![15, 0], clause, clauses - 1 + over, vec![])
        }
    };
    let [first, repeated, end] =
        [first, repeated, end].map(|numbers| clause_bytes::bytes(&numbers));
    let bytes = [first.clone(), repeated.repeat(times), end.clone()].concat();
    let needed = needed(random, &bytes, MOST_VARIABLES);
    let clauses = input_in_parts(&first, &repeated, times, &end);
    format!("{MOST_VARIABLES} {clauses} {} 16", rooms(random, needed))
}

pub fn tidy(random: &mut Random) -> String {
    if random.below(300) == 0 {
        return at_a_limit(random);
    }
    // A long list has a variable for each half of a number.
    let many = random.pick(&[2 * NUMBERED as u32, 600, MOST_VARIABLES - 1, MOST_VARIABLES]);
    let (mut variables, clauses) = match random.below(2_000) {
        0 | 1 => {
            let shape = random.pick(&[Shape::First, Shape::Last]);
            let own = |number| numbered(number, many, shape);
            (many, long(random, MOST_CLAUSES as usize, own))
        }
        2..=41 => {
            let count = random.pick(&COUNTS);
            let shape = random.pick(&[
                Shape::First,
                Shape::Last,
                Shape::Sum,
                Shape::ExclusiveOr,
                Shape::Remainders,
            ]);
            // With few variables there are only pairs.
            let shape = match many < MOST_VARIABLES - 1 && shape != Shape::Last {
                true => Shape::First,
                false => shape,
            };
            let own = |number| numbered(number, many, shape);
            (many, long(random, count, own))
        }
        42..=46 => (many, with_long_clause(random, many)),
        47..=54 => (MOST_VARIABLES, of_full_slots(random)),
        _ => {
            let variables = variable_count(random);
            (variables, short(random, variables))
        }
    };
    let mut bytes = bytes_of(&clauses);
    if random.percent(15) {
        clause_bytes::damage(random, &mut variables, &mut bytes);
    }
    let needed = needed(random, &bytes, variables);
    let clauses = input(random, &bytes);
    let outputs = rooms(random, needed);
    format!("{variables} {clauses} {outputs} {}", answer_part(random, 4))
}

#[cfg(test)]
mod tests {
    use super::*;
    use reference::answer::Refusal;
    use reference::protocol::Fields;
    use std::collections::{BTreeMap, BTreeSet};

    struct Request {
        variables: u32,
        bytes: Vec<u8>,
        lent: [usize; 2],
        answer: usize,
    }

    impl Request {
        fn numbers(&self) -> Vec<i32> {
            let four = |four: &[u8]| i32::from_le_bytes([four[0], four[1], four[2], four[3]]);
            self.bytes.chunks_exact(4).map(four).collect()
        }

        fn clauses(&self) -> usize {
            self.numbers().iter().filter(|&&number| number == 0).count()
        }

        fn tidied(&self) -> Result<([Vec<u8>; 2], [u32; 2]), Refusal> {
            tidied(&self.bytes, self.variables, [usize::MAX; 2])
        }

        /// The clause, the word and the number of each line.
        fn lines(&self) -> Vec<(usize, String, usize)> {
            let lines = self.tidied().map_or(vec![], |([_, lines], _)| lines);
            let line = |line: &str| {
                let fields: Vec<&str> = line.split('\t').collect();
                let number = |at: usize| fields[at].parse().unwrap();
                (number(0), fields[1].to_string(), number(2))
            };
            String::from_utf8(lines)
                .unwrap()
                .lines()
                .map(line)
                .collect()
        }
    }

    fn requests() -> Vec<Request> {
        let mut random = Random::new(1);
        let request = |request: String| {
            let mut fields = Fields::new(&request);
            let variables = fields.number().unwrap();
            let bytes = fields.input().unwrap();
            let lent = [0; 2].map(|_| fields.output().unwrap().len());
            let answer = fields.answer_part().unwrap().len();
            fields.end().unwrap();
            Request {
                variables,
                bytes,
                lent,
                answer,
            }
        };
        (0..6_000).map(|_| request(tidy(&mut random))).collect()
    }

    #[test]
    fn either_output_is_short_by_one_byte_or_exact() {
        let mut found = BTreeMap::new();
        for request in requests() {
            let kind = match request.tidied() {
                _ if request.answer != 16 => ["11"; 2],
                Err(_) => ["9"; 2],
                Ok((outputs, _)) => [0, 1].map(|at| match (request.lent[at], outputs[at].len()) {
                    (lent, needed) if lent == needed => "exact",
                    (lent, needed) if lent + 1 == needed => "one less",
                    (lent, needed) if lent < needed => "less",
                    _ => "more",
                }),
            };
            *found.entry(kind).or_insert(0) += 1;
        }
        let often = found.values().all(|&count| count > 5);
        // Each of the four with each of the four, and the two other refusals.
        assert!(found.len() == 18 && often, "{found:?}");
    }

    #[test]
    fn all_that_can_be_told_is_asked() {
        let mut found = BTreeSet::new();
        for request in requests() {
            let mut gone = BTreeSet::new();
            let lines = request.lines();
            for (clause, word, number) in &lines {
                found.insert(match word.as_str() {
                    "literal" if *number > 999 => "a literal far behind".to_string(),
                    "literal" => format!("literal {}", number.min(&3)),
                    "tautology" => format!("tautology, {} before", gone.len().min(3)),
                    _ if *number == 0 => "repeat of the first".to_string(),
                    _ if number + 1 == *clause => "repeat of the one before".to_string(),
                    _ if number / BLOCK != clause / BLOCK => {
                        format!(
                            "repeat of another block's {}",
                            (number % BLOCK + 2).min(5) % 4
                        )
                    }
                    _ => "repeat".to_string(),
                });
                if word != "literal" {
                    gone.insert(*clause);
                }
            }
            let told = request.tidied().map_or([9, 9], |(_, values)| values);
            found.insert(format!(
                "{:?} lines and clauses",
                told.map(|count| count.min(2))
            ));
        }
        let expected = [
            "a literal far behind",
            "literal 1",
            "literal 2",
            "literal 3",
            "tautology, 0 before",
            "tautology, 1 before",
            "tautology, 3 before",
            "repeat",
            "repeat of the first",
            "repeat of the one before",
            "repeat of another block's 1",
            "repeat of another block's 2",
            "repeat of another block's 3",
            "[0, 0] lines and clauses",
            "[0, 2] lines and clauses",
            "[1, 0] lines and clauses",
            "[2, 0] lines and clauses",
            "[2, 2] lines and clauses",
        ];
        let missing: Vec<_> = expected
            .iter()
            .filter(|&&one| !found.contains(one))
            .collect();
        assert!(missing.is_empty(), "{missing:?} is not among {found:?}");
    }

    #[test]
    fn lists_of_all_lengths_are_asked() {
        let requests = requests();
        let right = |request: &&Request| request.tidied().is_ok();
        let mut counts = BTreeMap::new();
        for request in requests.iter().filter(right) {
            *counts.entry(request.clauses()).or_insert(0) += 1;
        }
        let most = MOST_CLAUSES as usize;
        for count in COUNTS.into_iter().chain([0, 1, 2, 100, most]) {
            assert!(counts.get(&count) > Some(&1), "{count}: {counts:?}");
        }
        let is_over = |request: &Request| request.clauses() == most + 1;
        assert!(requests.iter().any(is_over));
        let literals = |request: &Request| request.bytes.len() / 4 - request.clauses();
        let literals: BTreeSet<usize> = requests.iter().map(literals).collect();
        assert!(literals.contains(&999_999) && literals.iter().max() > Some(&999_999));
    }

    #[test]
    fn the_clauses_of_a_long_list_are_all_different() {
        let shapes = [Shape::First, Shape::Last, Shape::Sum, Shape::ExclusiveOr];
        for shape in shapes.into_iter().chain([Shape::Remainders]) {
            let clauses: Vec<Clause> = (0..MOST_CLAUSES as usize)
                .map(|number| numbered(number, MOST_VARIABLES - 1, shape))
                .collect();
            let (outputs, values) =
                tidied(&bytes_of(&clauses), MOST_VARIABLES - 1, [usize::MAX; 2]).unwrap();
            assert_eq!(values, [0, MOST_CLAUSES]);
            assert_eq!(outputs[0], bytes_of(&clauses));
            let folded: BTreeSet<i32> = clauses
                .iter()
                .map(|clause| match shape {
                    Shape::Sum => clause.iter().sum(),
                    Shape::ExclusiveOr => clause.iter().fold(0, |all, one| all ^ one),
                    Shape::Remainders => clause.iter().fold(0, |all, one| 64 * all + one % 64),
                    _ => 0,
                })
                .collect();
            assert_eq!(folded.len(), 1);
        }
    }

    #[test]
    fn clauses_of_one_slot_are_all_different() {
        for seed in 0..SEEDS {
            let one = seed * (SLOTS - 1) / (SEEDS - 1);
            let clauses = of_one_slot(seed, MOST_VARIABLES, one);
            let (_, values) = tidied(&bytes_of(&clauses), MOST_VARIABLES, [usize::MAX; 2]).unwrap();
            assert_eq!(values, [0, clauses.len() as u32]);
            assert!(clauses.len() > 5 * BLOCK + RUN, "{}", clauses.len());
            let slots = |clause: &Clause| clause.iter().map(|&one| slot(seed, one)).sum::<usize>();
            assert!(clauses.iter().all(|clause| slots(clause) % SLOTS == one));
        }
    }

    /// How often clauses of a block are compared in vain, by a seed: a clause with each that is before it in its slot, and has
    /// other literals. Those of other blocks are left out.
    fn in_vain(clauses: &[&[i32]], seed: usize) -> usize {
        let mut slots: BTreeMap<usize, BTreeSet<BTreeSet<i32>>> = BTreeMap::new();
        for clause in clauses {
            let set: BTreeSet<i32> = clause.iter().copied().collect();
            let sum: usize = set.iter().map(|&literal| slot(seed, literal)).sum();
            slots.entry(sum % SLOTS).or_default().insert(set);
        }
        let pairs = |sets: &BTreeSet<_>| sets.len() * (sets.len() - 1) / 2;
        slots.values().map(pairs).sum()
    }

    #[test]
    fn what_goes_behind_full_slots_is_asked() {
        let (mut found, mut last) = (BTreeSet::new(), BTreeSet::new());
        for request in requests().iter().filter(|request| request.tidied().is_ok()) {
            let numbers = request.numbers();
            let clauses: Vec<&[i32]> = numbers.split(|&number| number == 0).collect();
            if clauses.len() <= 2 * BLOCK || clauses.len() > 6 * BLOCK {
                continue;
            }
            // As the library goes: the seed with which a block is left is that of the next one.
            let (mut seed, mut block) = (0, 0);
            for (at, clauses) in clauses.chunks(BLOCK).enumerate() {
                while seed + 1 < SEEDS && in_vain(clauses, seed) > IN_VAIN {
                    (seed, block) = (seed + 1, at);
                }
            }
            last.insert(seed);
            // What goes behind the block in which the last seed was taken.
            for (clause, word, number) in request.lines() {
                if seed > 0 && clause / BLOCK > block {
                    let is_before = word == "repeat" && number / BLOCK <= block;
                    found.insert((seed + 1 == SEEDS, word, is_before));
                }
            }
        }
        let seeds = [0, 1, SEEDS - 1];
        assert!(seeds.iter().all(|seed| last.contains(seed)), "{last:?}");
        let words = [
            ("repeat", true),
            ("repeat", false),
            ("tautology", false),
            ("literal", false),
        ];
        for is_last in [false, true] {
            for (word, is_before) in words {
                let one = (is_last, word.to_string(), is_before);
                assert!(found.contains(&one), "{one:?} is not among {found:?}");
            }
        }
    }

    #[test]
    fn literals_of_both_ends_are_asked() {
        let mut found = BTreeSet::new();
        for request in requests().iter().filter(|request| request.tidied().is_ok()) {
            let last = request.variables as i32;
            for number in request.numbers() {
                if [1, last].contains(&number.abs()) {
                    found.insert((last.min(40_000), number));
                }
            }
        }
        let ends = [1, -1, 40_000, -40_000];
        assert!(ends.iter().all(|&end| found.contains(&(40_000, end))));
    }
}
