//! DIMACS texts of clauses, right and damaged, and what they share with those of formulas.

use crate::clause_bytes::{numbers, variable_count};
use crate::random::Random;

/// A text that was right before any fault, and how many numbers it had after its header.
pub struct Text {
    pub bytes: Vec<u8>,
    pub numbers: usize,
}

/// What is put into a text that is damaged.
pub struct Damage {
    /// Words that are at fault, or at a limit, or right in another place.
    pub words: &'static [&'static str],
    /// Bytes of every kind that the reader tells apart, and some that it does not.
    pub bytes: &'static [u8],
    /// Bytes that part words.
    pub parting: &'static [u8],
    /// What bytes without any order may follow.
    pub fronts: &'static [&'static str],
}

/// One or more bytes of white space: mostly one, of the usual kind.
pub fn spaced(random: &mut Random, text: &mut Vec<u8>, usual: u8, kinds: &[u8]) {
    if random.percent(70) {
        text.push(usual);
        return;
    }
    for _ in 0..random.between(1, 3) {
        text.push(random.pick(kinds));
    }
}

fn comment(random: &mut Random, text: &mut Vec<u8>) {
    text.push(b'c');
    for _ in 0..random.below(8) {
        let any = random.between(0, 255) as u8;
        match random.pick(&[any, b'c', b'p', b' ', b'\r', 0, 128]) {
            b'\n' => text.push(b'n'),
            byte => text.push(byte),
        }
    }
    text.push(b'\n');
}

/// Comments and a header of these words behind its first, and what may stand behind it.
pub fn header(random: &mut Random, words: &[String]) -> Vec<u8> {
    let mut text = vec![];
    while random.percent(25) {
        comment(random, &mut text);
    }
    text.push(b'p');
    for word in words {
        spaced(random, &mut text, b' ', b" \t");
        text.extend(word.as_bytes());
    }
    if random.percent(10) {
        spaced(random, &mut text, b' ', b" \t");
    }
    text.push(b'\n');
    if random.percent(10) {
        spaced(random, &mut text, b' ', b" \t\r\n");
    }
    text
}

/// A right text.
pub fn right(random: &mut Random) -> Text {
    let variables = variable_count(random);
    let numbers = numbers(random, variables);
    let clauses = numbers.iter().filter(|&&number| number == 0).count();
    let words = [
        "cnf".to_string(),
        variables.to_string(),
        clauses.to_string(),
    ];
    let mut text = header(random, &words);
    for (place, number) in numbers.iter().enumerate() {
        text.extend(number.to_string().as_bytes());
        let usual = if *number == 0 { b'\n' } else { b' ' };
        if place + 1 < numbers.len() || random.percent(60) {
            spaced(random, &mut text, usual, b" \t\r\n");
        }
    }
    Text {
        bytes: text,
        numbers: numbers.len(),
    }
}

pub const DAMAGE: Damage = Damage {
    words: &[
        "0",
        "-",
        "-0",
        "00",
        "01",
        "+1",
        "1",
        "-1",
        "2",
        "-2",
        "9",
        "13",
        "100",
        "39999",
        "40000",
        "40001",
        "65534",
        "65535",
        "400000",
        "99999999999",
        "p",
        "c",
        "cnf",
        "p cnf 1 1\n",
        "c\n",
        "%",
    ],
    bytes: b"0149-+ \t\r\n\0\x0b\x0c\x1f\x7f\x80\xffpcnf.",
    parting: b" \t\r\n",
    fronts: &["", "p", "p cnf ", "p cnf 12 3\n", "c"],
};

/// Puts one fault into a text. Some faults leave it right.
pub fn damage(random: &mut Random, text: &mut Vec<u8>, with: &Damage) {
    let end = text.len();
    let place = random.below(end.max(1));
    let byte = random.pick(with.bytes);
    match random.below(12) {
        0 | 1 => text.truncate(place),
        2 | 3 if end > 0 => text[place] = byte,
        4 | 5 => text.insert(place.min(end), byte),
        6 | 7 if end > 0 => {
            text.remove(place);
        }
        8 if end > 0 => text[place] = random.between(0, 255) as u8,
        9 | 10 => replace_word(random, text, with),
        _ => text.extend(format!(" {}", random.pick(with.words)).bytes()),
    }
}

/// Puts another word in the place of one of the text's words.
fn replace_word(random: &mut Random, text: &mut Vec<u8>, with: &Damage) {
    let parts = |byte: &u8| with.parting.contains(byte);
    let starts: Vec<usize> = (0..text.len())
        .filter(|&at| !parts(&text[at]) && (at == 0 || parts(&text[at - 1])))
        .collect();
    if starts.is_empty() {
        return;
    }
    let start = random.pick(&starts);
    let length = text[start..].iter().take_while(|byte| !parts(byte)).count();
    text.splice(start..start + length, random.pick(with.words).bytes());
}

/// Bytes without any order.
pub fn noise(random: &mut Random, with: &Damage) -> Vec<u8> {
    let mut text = random.pick(with.fronts).as_bytes().to_vec();
    for _ in 0..random.below(24) {
        let any = random.between(0, 255) as u8;
        let known = random.pick(with.bytes);
        text.push(random.pick(&[any, known, known]));
    }
    text
}
