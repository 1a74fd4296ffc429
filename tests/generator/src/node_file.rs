//! Node files, right and damaged.

use crate::formula::Formula;
use crate::random::Random;

fn lines(formula: &Formula) -> String {
    let line = |(number, record): (usize, &[u8])| {
        let field = |at: usize| u16::from_le_bytes([record[at], record[at + 1]]);
        format!("{number}\t{}\t{}\t{}\n", record[0], field(1), field(3))
    };
    let whole = formula.table.chunks_exact(5).enumerate();
    let lines: String = whole.map(line).collect();
    format!("options\t{}\n{lines}", formula.options)
}

/// The node file of a table. In some draws a byte, a field or a line of it is at fault.
pub fn node_file(random: &mut Random, formula: &Formula) -> Vec<u8> {
    let mut text = lines(formula).into_bytes();
    if !random.percent(30) {
        return text;
    }
    let place = random.below(text.len());
    let byte = random.pick(b"\t\n\r 0123456789-+xo");
    match random.below(8) {
        0 => text.truncate(place),
        1 => text[place] = byte,
        2 => text.insert(place, byte),
        3 => {
            text.remove(place);
        }
        4 => text[place] = random.between(0, 255) as u8,
        5 => text.extend(b"\n"),
        6 if random.percent(10) => text.resize(random.pick(&[65_536, 65_537, 70_000]), byte),
        _ => {
            text.pop();
        }
    }
    text
}
