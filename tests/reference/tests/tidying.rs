//! Tidying clause bytes: what goes, what is told of it, and what it leaves true.

mod drawn;

use drawn::Random;
use reference::dimacs_writer;
use reference::tidy::tidy;
use std::collections::BTreeSet;

fn bytes(numbers: &[i32]) -> Vec<u8> {
    numbers
        .iter()
        .flat_map(|number| number.to_le_bytes())
        .collect()
}

fn numbers(bytes: &[u8]) -> Vec<i32> {
    let four = |four: &[u8]| i32::from_le_bytes([four[0], four[1], four[2], four[3]]);
    bytes.chunks_exact(4).map(four).collect()
}

/// The kept numbers and the lines, with room for all.
fn tidied(given: &[i32], variables: u32) -> Result<(Vec<i32>, String), u32> {
    let ([kept, lines], [changes, clauses]) = tidy(&bytes(given), variables, [usize::MAX; 2])
        .map_err(|refusal| {
            assert_eq!(refusal.place, 0);
            refusal.number
        })?;
    let (kept, lines) = (numbers(&kept), String::from_utf8(lines).unwrap());
    let closed = kept.iter().filter(|&&number| number == 0).count();
    assert_eq!(
        [lines.lines().count(), closed],
        [changes as usize, clauses as usize]
    );
    Ok((kept, lines))
}

#[track_caller]
fn leaves(given: &[i32], kept: &[i32], lines: &str) {
    let lines = lines.replace(' ', "\t");
    assert_eq!(
        tidied(given, 40_000),
        Ok((kept.to_vec(), lines)),
        "{given:?}"
    );
}

#[test]
fn of_equal_literals_the_first_stays() {
    leaves(&[1, 2, 0], &[1, 2, 0], "");
    leaves(&[1, 1, 0], &[1, 0], "0 literal 1\n");
    leaves(&[1, 2, 1, 0], &[1, 2, 0], "0 literal 2\n");
    leaves(
        &[2, 1, 2, 2, 1, 0],
        &[2, 1, 0],
        "0 literal 2\n0 literal 3\n0 literal 4\n",
    );
    leaves(&[3, 0, -4, -4, 0], &[3, 0, -4, 0], "1 literal 1\n");
}

#[test]
fn a_clause_with_a_literal_and_its_negation_goes() {
    leaves(&[1, -1, 0], &[], "0 tautology 0\n");
    leaves(
        &[2, 0, -1, 3, 3, 1, 0, 2, 2, 0],
        &[2, 0],
        "1 tautology 0\n2 repeat 0\n",
    );
    // The same tautology again is no repeat: the first was not kept.
    leaves(&[1, -1, 0, 1, -1, 0], &[], "0 tautology 0\n1 tautology 0\n");
    leaves(&[-40_000, 1, 40_000, 0], &[], "0 tautology 0\n");
}

#[test]
fn a_clause_with_the_literals_of_a_kept_one_goes() {
    leaves(&[1, 2, 0, 2, 1, 0], &[1, 2, 0], "1 repeat 0\n");
    leaves(&[1, 2, 0, 2, 1, 2, 2, 0], &[1, 2, 0], "1 repeat 0\n");
    leaves(
        &[1, 1, 2, 0, 2, 1, 0],
        &[1, 2, 0],
        "0 literal 1\n1 repeat 0\n",
    );
    // A repeat of a repeat has the number of the kept one, as it was before.
    leaves(
        &[1, -1, 0, 5, 0, 6, 0, 6, 0, 6, 6, 0],
        &[5, 0, 6, 0],
        "0 tautology 0\n3 repeat 2\n4 repeat 2\n",
    );
    // A part of a clause is another clause.
    leaves(
        &[1, 2, 0, 1, 0, 1, 2, 3, 0],
        &[1, 2, 0, 1, 0, 1, 2, 3, 0],
        "",
    );
    leaves(&[1, 0, -1, 0, 1, 0], &[1, 0, -1, 0], "2 repeat 0\n");
}

#[test]
fn an_empty_clause_is_a_clause() {
    leaves(&[], &[], "");
    leaves(&[0], &[0], "");
    leaves(&[0, 0, 0], &[0], "1 repeat 0\n2 repeat 0\n");
    leaves(
        &[1, 0, 0, 1, -1, 0, 0],
        &[1, 0, 0],
        "2 tautology 0\n3 repeat 1\n",
    );
}

#[test]
fn clause_bytes_are_those_that_can_be_written() {
    for (given, variables) in [
        (vec![], 40_001),
        (vec![1], 1),
        (vec![0, 1], 1),
        (vec![2, 0], 1),
        (vec![-2, 0], 1),
        (vec![i32::MIN, 0], 40_000),
        (vec![0; 65_535], 0),
        (vec![1; 1_000_000], 1),
    ] {
        assert_eq!(tidied(&given, variables), Err(9));
    }
    for length in [1, 2, 3, 5] {
        assert!(tidy(&vec![0; length], 1, [usize::MAX; 2]).is_err());
    }
    let (kept, lines) = tidied(&vec![0; 65_534], 0).unwrap();
    assert_eq!((kept.len(), lines.lines().count()), (1, 65_533));
    assert!(lines.ends_with("\n65533\trepeat\t0\n"));
    let mut most = vec![1; 999_999];
    most.push(0);
    let (kept, lines) = tidied(&most, 1).unwrap();
    assert_eq!((kept, lines.lines().count()), (vec![1, 0], 999_998));
    assert!(lines.ends_with("\n0\tliteral\t999998\n"));
}

#[test]
fn room_is_looked_at_last_and_for_both_outputs() {
    let given = bytes(&[1, 1, 0, 1, 0]);
    let of = |lent| tidy(&given, 1, lent).map_err(|refusal| refusal.number);
    assert!(of([8, 23]).is_ok());
    for lent in [[7, 23], [8, 22], [0, 0], [7, 1_000], [1_000, 22]] {
        assert_eq!(of(lent).err(), Some(7), "{lent:?}");
    }
    assert_eq!(
        tidy(&given[1..], 1, [0, 0])
            .err()
            .map(|refusal| refusal.number),
        Some(9)
    );
}

/// The clauses of numbers.
fn clauses(numbers: &[i32]) -> Vec<Vec<i32>> {
    let mut found: Vec<Vec<i32>> = numbers
        .split(|&number| number == 0)
        .map(<[i32]>::to_vec)
        .collect();
    assert_eq!(found.pop(), Some(vec![]), "the last clause is closed");
    found
}

/// Whether the lines say of each clause what is true of it, and leave what is kept. A clause is compared with each
/// before it.
fn is_told(given: &[i32], kept: &[i32], lines: &str) -> bool {
    let given = clauses(given);
    let sets: Vec<BTreeSet<i32>> = given
        .iter()
        .map(|clause| clause.iter().copied().collect())
        .collect();
    let (mut left, mut expected, mut stays) = (vec![], String::new(), vec![]);
    for (at, clause) in given.iter().enumerate() {
        if clause.iter().any(|&literal| clause.contains(&-literal)) {
            expected += &format!("{at}\ttautology\t0\n");
            continue;
        }
        if let Some(first) = stays
            .iter()
            .find(|&&first: &&usize| sets[first] == sets[at])
        {
            expected += &format!("{at}\trepeat\t{first}\n");
            continue;
        }
        stays.push(at);
        for (position, literal) in clause.iter().enumerate() {
            match clause[..position].contains(literal) {
                true => expected += &format!("{at}\tliteral\t{position}\n"),
                false => left.push(*literal),
            }
        }
        left.push(0);
    }
    left == kept && expected == lines
}

fn is_true(numbers: &[i32], row: u32) -> bool {
    let holds = |literal: &i32| (row >> (literal.unsigned_abs() - 1) & 1 == 1) == (*literal > 0);
    clauses(numbers)
        .iter()
        .all(|clause| clause.iter().any(holds))
}

/// What is known of every list of clauses.
fn hold(given: &[i32], variables: u32) {
    let (kept, lines) = tidied(given, variables).unwrap();
    assert!(
        is_told(given, &kept, &lines),
        "{given:?}: {kept:?}, {lines:?}"
    );
    assert_eq!(
        tidied(&kept, variables),
        Ok((kept.clone(), String::new())),
        "{given:?}"
    );
    assert!(dimacs_writer::text(&bytes(&kept), variables, usize::MAX).is_ok());
    for row in 0..1 << variables {
        assert_eq!(
            is_true(given, row),
            is_true(&kept, row),
            "{given:?} in row {row:b}"
        );
    }
}

/// All lists of so many numbers over these.
fn lists(over: &[i32], length: usize) -> Vec<Vec<i32>> {
    match length {
        0 => vec![vec![]],
        _ => {
            let longer = |list: &Vec<i32>| -> Vec<Vec<i32>> {
                let with = |&number: &i32| [list.as_slice(), &[number]].concat();
                over.iter().map(with).collect()
            };
            lists(over, length - 1).iter().flat_map(longer).collect()
        }
    }
}

#[test]
fn all_short_lists_keep_to_the_rule() {
    for length in 0..=6 {
        for mut list in lists(&[0, 1, -1, 2], length) {
            list.push(0);
            hold(&list, 2);
        }
    }
    hold(&[], 2);
}

#[test]
fn drawn_lists_keep_to_the_rule() {
    let mut random = Random(1);
    for turn in 0..3_000 {
        let variables = 1 + turn % 7;
        let mut list = vec![];
        for _ in 0..random.below(40) {
            for _ in 0..random.below(6) {
                let variable = 1 + random.below(variables) as i32;
                list.push(if random.below(3) == 0 {
                    -variable
                } else {
                    variable
                });
            }
            list.push(0);
        }
        hold(&list, variables as u32);
    }
}
