//! Reading and writing DIMACS text: its limits, and the place of a refusal.

use reference::dimacs_reader::clause_bytes;
use reference::dimacs_writer::text;

fn bytes(numbers: &[i32]) -> Vec<u8> {
    numbers
        .iter()
        .flat_map(|number| number.to_le_bytes())
        .collect()
}

fn place(text: &[u8]) -> Option<u64> {
    clause_bytes(text, usize::MAX).err().map(|refusal| {
        assert_eq!(refusal.number, 8);
        refusal.place
    })
}

#[track_caller]
fn accepted(text: &str, values: [u32; 2], numbers: &[i32]) {
    assert_eq!(
        clause_bytes(text.as_bytes(), usize::MAX),
        Ok((bytes(numbers), values)),
        "{text:?}"
    );
}

#[track_caller]
fn refused(text: &str, expected: u64) {
    assert_eq!(place(text.as_bytes()), Some(expected), "{text:?}");
}

#[test]
fn numbers_are_parted_by_any_white_space() {
    accepted("p cnf 2 2\n1 -2 0\n0\n", [2, 2], &[1, -2, 0, 0]);
    accepted("p cnf 2 2\n1 -2 0 0", [2, 2], &[1, -2, 0, 0]);
    accepted(
        "p cnf 2 2\n \t\r\n1\t-2\r0\n\n0\r \n\t",
        [2, 2],
        &[1, -2, 0, 0],
    );
    accepted("p cnf 2 2\n1\n-2\n0 0", [2, 2], &[1, -2, 0, 0]);
    refused("p cnf 2 2\n1\u{b}0 0", 11);
    refused("p cnf 2 2\n1\u{c}0 0", 11);
}

#[test]
fn comments_hold_any_byte_and_stand_before_the_header() {
    accepted("c\np cnf 0 0\n", [0, 0], &[]);
    accepted("c p cnf\r\0\t\nccc\ncnf\np cnf 0 1\n0", [0, 1], &[0]);
    refused("p cnf 1 1\nc\n1 0\n", 10);
    refused("\np cnf 0 0\n", 0);
    refused(" c\np cnf 0 0\n", 0);
    refused("c\n p cnf 0 0\n", 2);
    refused("c", 1);
    refused("c\n", 2);
    refused("C\n", 0);
    assert_eq!(place(b"c\xff\x80\np cnf 0 0\n"), None);
    assert_eq!(place(b"\xff"), Some(0));
}

#[test]
fn the_header_is_one_line_with_blanks_between() {
    accepted("p\tcnf  0 \t 0\t \n", [0, 0], &[]);
    refused("", 0);
    refused("pcnf 1 1\n", 1);
    refused("p  cnf1 1\n", 6);
    refused("p cnf 1 1", 9);
    refused("p cnf 1 1\r\n1 0\n", 9);
    refused("p cnf 1\n1\n", 7);
    refused("p\ncnf 1 1\n", 1);
    refused("p cnf 1 1 1\n", 10);
    refused("p CNF 1 1\n", 2);
    refused("p cnf -1 1\n", 6);
    refused("p cnf +1 1\n", 6);
    refused("p cnf 01 1\n", 7);
    refused("p cnf 1 00\n", 9);
}

#[test]
fn a_limit_refuses_at_the_first_byte_that_cannot_be_finished() {
    refused("p cnf 40001", 10);
    refused("p cnf 40000 65535", 16);
    refused("p cnf 400000 1", 11);
    refused("p cnf 5000 1\n5001 0", 16);
    refused("p cnf 30 1\n31 0", 12);
    refused("p cnf 1 1\n2 0", 10);
    refused("p cnf 0 1\n1 0", 10);
    refused("p cnf 0 1\n-0 0", 10);
    refused("p cnf 2 1\n-0 0", 11);
    refused("p cnf 2 1\n-3 0", 11);
    refused("p cnf 2 1\n00", 11);
    refused("p cnf 2 1\n01 0", 11);
    refused("p cnf 2 1\n1-2 0", 11);
    refused("p cnf 2 1\n+1 0", 10);
    refused("p cnf 2 1\n1 x", 12);
    accepted(
        "p cnf 40000 1\n40000 -40000 0",
        [40_000, 1],
        &[40_000, -40_000, 0],
    );
}

#[test]
fn clauses_are_exactly_as_declared() {
    accepted("p cnf 0 0\n \r\n", [0, 0], &[]);
    refused("p cnf 1 0\n0", 10);
    refused("p cnf 1 0\n1", 10);
    refused("p cnf 1 0\n-", 10);
    refused("p cnf 1 1\n1 0 0", 14);
    refused("p cnf 1 1\n1 0 1 0", 14);
    refused("p cnf 1 1\n1 0 -1 0", 14);
    refused("p cnf 1 1\n1", 11);
    refused("p cnf 1 1\n1 ", 12);
    refused("p cnf 1 1\n-", 11);
    refused("p cnf 1 2\n1 0\n", 14);
    refused("p cnf 1 1\n", 10);
}

#[test]
fn literals_are_at_most_999999() {
    let with = |literals: usize| [b"p cnf 1 1\n".to_vec(), b"1 ".repeat(literals)].concat();
    let most = [with(999_999), b"0".to_vec()].concat();
    assert_eq!(place(&most), None);
    let place_of_next = most.len() as u64 - 1;
    for next in ["1 0", "-1 0", "x", ""] {
        let text = [with(999_999), next.as_bytes().to_vec()].concat();
        assert_eq!(place(&text), Some(place_of_next), "{next}");
    }
}

#[test]
fn clauses_are_at_most_65534() {
    let text = [b"p cnf 0 65534\n".to_vec(), b"0 ".repeat(65_534)].concat();
    assert_eq!(place(&text), None);
    refused("p cnf 0 65535\n", 12);
}

#[test]
fn room_for_reading_is_looked_at_last() {
    let read = |text: &[u8], lent| clause_bytes(text, lent).map_err(|refusal| refusal.number);
    assert_eq!(read(b"p cnf 1 1\n1 0", 8), Ok((bytes(&[1, 0]), [1, 1])));
    assert_eq!(read(b"p cnf 1 1\n1 0", 7), Err(7));
    assert_eq!(read(b"p cnf 1 1\n1 0 x", 0), Err(8));
    assert_eq!(read(b"p cnf 9 0\n", 0), Ok((vec![], [9, 0])));
}

/// Whether a whole text is accepted, found by cutting it into lines and words. White space is space and
/// newline alone, and numbers have one digit.
fn is_accepted(text: &str) -> bool {
    let (header, body) = match text.split_once('\n') {
        Some(parts) => parts,
        None => return false,
    };
    let declared: Vec<&str> = header.split(' ').collect();
    let (variables, clauses): (i32, usize) = match declared[..] {
        ["p", "cnf", variables, clauses] => (variables.parse().unwrap(), clauses.parse().unwrap()),
        _ => return false,
    };
    let words: Vec<&str> = body
        .split([' ', '\n'])
        .filter(|word| !word.is_empty())
        .collect();
    let is_right = |word: &&str| {
        let digits = word.strip_prefix('-').unwrap_or(word);
        let is_plain = digits.bytes().all(|byte| byte.is_ascii_digit())
            && !digits.is_empty()
            && (!digits.starts_with('0') || *word == "0");
        is_plain && digits.parse::<i32>().unwrap() <= variables
    };
    let closed = words.iter().filter(|&&word| word == "0").count();
    let is_closed = words.last().map_or(true, |&word| word == "0");
    words.iter().all(is_right) && closed == clauses && is_closed
}

/// All strings over the letters, of this length.
fn strings(letters: &[char], length: usize) -> Vec<String> {
    if length == 0 {
        return vec![String::new()];
    }
    let shorter = strings(letters, length - 1);
    let longer = |text: &String| -> Vec<String> {
        letters
            .iter()
            .map(|letter| format!("{text}{letter}"))
            .collect()
    };
    shorter.iter().flat_map(longer).collect()
}

/// The place is found by its meaning: which beginnings of the text also begin an accepted text.
#[test]
fn the_place_is_the_longest_beginning_that_can_be_finished() {
    let useful = ['0', '1', '-', ' '];
    let endings: Vec<String> = (0..=5)
        .flat_map(|length| strings(&useful, length))
        .collect();
    let letters = ['0', '1', '2', '-', ' ', '\n', 'x'];
    for header in [
        "p cnf 0 0\n",
        "p cnf 0 1\n",
        "p cnf 1 1\n",
        "p cnf 1 0\n",
        "p cnf 2 2\n",
    ] {
        let mut live: Vec<String> = vec![String::new()];
        for length in 1..=4 {
            for body in strings(&letters, length) {
                let can_be_finished = live.iter().any(|shorter| *shorter == body[..length - 1])
                    && endings
                        .iter()
                        .any(|ending| is_accepted(&format!("{header}{body}{ending}")));
                if can_be_finished {
                    live.push(body);
                }
            }
        }
        for body in strings(&letters, 4) {
            let text = format!("{header}{body}");
            let longest = (0..=4)
                .rev()
                .find(|&length| live.iter().any(|text| *text == body[..length]))
                .unwrap();
            let expected = match is_accepted(&text) {
                true => None,
                false => Some((header.len() + longest) as u64),
            };
            assert_eq!(place(text.as_bytes()), expected, "{text:?}");
        }
    }
}

fn written(numbers: &[i32], variables: u32) -> Result<String, u32> {
    text(&bytes(numbers), variables, usize::MAX)
        .map(|(text, _)| String::from_utf8(text).unwrap())
        .map_err(|refusal| refusal.number)
}

#[test]
fn a_line_for_each_clause_is_written() {
    assert_eq!(written(&[], 7), Ok("p cnf 7 0\n".to_string()));
    assert_eq!(
        written(&[1, -40_000, 0, 0, 2, 0], 40_000),
        Ok("p cnf 40000 3\n1 -40000 0\n0\n2 0\n".to_string())
    );
}

#[test]
fn wrong_clause_bytes_are_not_written() {
    assert_eq!(written(&[], 40_001), Err(9));
    assert_eq!(written(&[1], 1), Err(9));
    assert_eq!(written(&[0, 1], 1), Err(9));
    assert_eq!(written(&[2, 0], 1), Err(9));
    assert_eq!(written(&[-2, 0], 1), Err(9));
    assert_eq!(written(&[i32::MIN, 0], 40_000), Err(9));
    assert_eq!(written(&[i32::MAX, 0], 40_000), Err(9));
    for length in [1, 2, 3, 5] {
        let number = text(&vec![0; length], 1, usize::MAX).map_err(|refusal| refusal.number);
        assert_eq!(number.err(), Some(9));
    }
}

#[test]
fn the_limits_of_writing_are_those_of_reading() {
    assert!(written(&vec![0; 65_534], 0).is_ok());
    assert_eq!(written(&vec![0; 65_535], 0), Err(9));
    let mut numbers = vec![1; 999_999];
    numbers.push(0);
    assert!(written(&numbers, 1).is_ok());
    numbers.insert(0, 1);
    assert_eq!(written(&numbers, 1), Err(9));
}

#[test]
fn room_for_writing_is_looked_at_last() {
    let write =
        |numbers: &[i32], lent| text(&bytes(numbers), 1, lent).map_err(|refusal| refusal.number);
    assert!(write(&[1, 0], 14).is_ok());
    assert_eq!(write(&[1, 0], 13).err(), Some(7));
    assert_eq!(write(&[2, 0], 0).err(), Some(9));
}

#[test]
fn what_is_written_reads_back() {
    for numbers in [
        vec![],
        vec![0],
        vec![1, -2, 0, 0, 3, 3, 0],
        vec![40_000, -1, 0],
    ] {
        let (text, values) = text(&bytes(&numbers), 40_000, usize::MAX).unwrap();
        assert_eq!(
            clause_bytes(&text, usize::MAX),
            Ok((bytes(&numbers), values))
        );
    }
}
