//! Tables to time: shapes that grow, and real guards.

use reference::node_file;
use std::path::PathBuf;

pub const MOST_NODES: usize = 1_024;
/// The allowance for which sets are chosen.
pub const ALLOWANCE: u32 = 1_024;
/// The most bytes of a conversion: four for each literal and for each clause.
pub const MOST_BYTES: usize = 4 * (999_999 + 65_534);
/// Node counts at which growth is measured.
pub const COUNTS: [usize; 5] = [64, 128, 256, 512, 1_024];

/// Adds a node to a table.
pub fn push(table: &mut Vec<u8>, kind: u8, a: usize, b: usize) {
    table.push(kind);
    table.extend((a as u16).to_le_bytes());
    table.extend((b as u16).to_le_bytes());
}

/// The symbols that a shape starts with.
pub const SYMBOLS: usize = 8;

/// Adds a node to a table that is to have so many nodes. The first number is the one that the node gets.
pub type Shape = fn(&mut Vec<u8>, usize, usize);

/// A table of a shape, with all symbols first.
pub fn grown(shape: Shape, count: usize) -> Vec<u8> {
    let mut table = vec![];
    for symbol in 1..=SYMBOLS {
        push(&mut table, 2, symbol, 0);
    }
    for number in SYMBOLS..count {
        shape(&mut table, number, count);
    }
    table
}

/// An and or an or, in turn, of the node before with a symbol.
pub fn chain(table: &mut Vec<u8>, number: usize, _: usize) {
    push(table, 4 + (number % 2) as u8, number - 1, number % SYMBOLS);
}

/// An and or an or of two of the nodes before.
pub fn shared(table: &mut Vec<u8>, number: usize, _: usize) {
    let mixed = number.wrapping_mul(2_654_435_761) >> 7;
    push(
        table,
        4 + (mixed % 2) as u8,
        number - 1,
        number - 2 - mixed % 5,
    );
}

/// The equivalence of the node before with a symbol.
pub fn equivalences(table: &mut Vec<u8>, number: usize, _: usize) {
    push(table, 7, number - 1, number % SYMBOLS);
}

/// Four nots, then the implication of the node before by one further below.
pub fn nots(table: &mut Vec<u8>, number: usize, _: usize) {
    match number % 5 {
        0 => push(table, 6, number - 5, number - 1),
        _ => push(table, 3, number - 1, 0),
    }
}

/// A conjunction of blocks, each of them (s1 and s2 and s3) or (s4 and s5 and s6). One node of each is worth renaming.
pub fn blocks(table: &mut Vec<u8>, number: usize, count: usize) {
    let within = (number - SYMBOLS) % 6;
    let first = number - within;
    if first + 6 > count {
        return push(table, 4, number - 1, 0);
    }
    match within {
        0 => push(table, 4, 0, 1),
        1 => push(table, 4, first, 2),
        2 => push(table, 4, 3, 4),
        3 => push(table, 4, first + 2, 5),
        4 => push(table, 5, first + 1, first + 3),
        _ => push(table, 4, first - 1, first + 4),
    }
}

/// An and, an or, an implication or an equivalence of the node before with one of five further below.
pub fn tangled(table: &mut Vec<u8>, number: usize, _: usize) {
    let mixed = number.wrapping_mul(2_654_435_761) >> 7;
    push(
        table,
        4 + (mixed % 4) as u8,
        number - 1,
        number - 2 - mixed / 4 % 5,
    );
}

/// The equivalence of the node before with itself.
pub fn doubled(table: &mut Vec<u8>, number: usize, _: usize) {
    push(table, 7, number - 1, number - 1);
}

/// So many ands, each of the next two of so many symbols, in one or that is joined from the left.
pub fn disjunction(ands: usize, symbols: usize) -> Vec<u8> {
    let mut table = vec![];
    for symbol in 1..=symbols {
        push(&mut table, 2, symbol, 0);
    }
    for number in 0..ands {
        let and = table.len() / 5;
        let (a, b) = (2 * number % symbols, (2 * number + 1) % symbols);
        push(&mut table, 4, a, b);
        if number > 0 {
            push(&mut table, 5, and - 1, and);
        }
    }
    table
}

/// A guard's option count and table.
pub struct Guard {
    pub options: u32,
    pub table: Vec<u8>,
}

/// The guards of a text of node files, one after another.
pub fn guards_of(text: &str) -> Vec<Guard> {
    let guard = |lines: &str| {
        let file = format!("options{lines}");
        let (options, table) = node_file::read(file.as_bytes()).expect("a node file");
        Guard { options, table }
    };
    text.split("options").skip(1).map(guard).collect()
}

/// The guards in the tests' folder.
pub fn sample() -> Vec<Guard> {
    guards_of(include_str!("../tests/corpus/guards.txt"))
}

/// The folder that the program was given, where it was given one.
pub fn given_folder() -> Option<PathBuf> {
    std::env::args().nth(1).map(PathBuf::from)
}

/// The guards of that folder.
pub fn given() -> Option<Vec<Guard>> {
    let text = std::fs::read_to_string(given_folder()?.join("guards.txt"));
    Some(guards_of(&text.expect("the folder has guards.txt")))
}

/// The project of each guard, in the order of an index.
pub fn projects_of(index: &str) -> Vec<String> {
    let mut lines = index.lines().map(|line| line.split('\t'));
    let mut columns = lines.next().expect("the first line names the columns");
    let at = columns.position(|name| name == "project");
    let at = at.expect("the index has a column of projects");
    lines
        .map(|mut fields| fields.nth(at).expect("each line has it").to_string())
        .collect()
}
