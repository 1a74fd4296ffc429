//! Prints a line for each guard and set: the guard's number, `nothing renamed` or `chosen set`, what tidying takes out, and the
//! clauses before. What is taken out are three numbers: tautologies, repeats, literals. Fields are parted by tabs. The last one has
//! the numbers of the clauses, parted by spaces. A folder of guards may be given, or the word `examples`; else it is the sample.

mod library;
mod tables;

use reference::dimacs_writer::MOST_VARIABLES;
use tables::{Guard, ALLOWANCE, MOST_BYTES};

/// The examples that are accepted.
const EXAMPLES: [&str; 6] = [
    include_str!("../examples/dead.nodes"),
    include_str!("../examples/equivalence.nodes"),
    include_str!("../examples/forty.nodes"),
    include_str!("../examples/intrinsics.nodes"),
    include_str!("../examples/sensors.nodes"),
    include_str!("../examples/untidy.nodes"),
];

fn guards() -> Vec<Guard> {
    match std::env::args().nth(1).as_deref() {
        Some("examples") => tables::guards_of(&EXAMPLES.concat()),
        Some(_) => tables::given().expect("a folder is given"),
        None => tables::sample(),
    }
}

fn main() {
    let (mut out, mut kept) = (vec![0; MOST_BYTES], vec![0; MOST_BYTES]);
    let mut changes = vec![0; 6 * MOST_BYTES];
    for (number, guard) in guards().iter().enumerate() {
        let (table, options) = (&guard.table, guard.options);
        let mut set = vec![0; table.len() / 5];
        for name in ["nothing renamed", "chosen set"] {
            if name == "chosen set" {
                library::choose(table, options, ALLOWANCE, &mut set);
            }
            let [clauses, literals] = library::measure(table, options, &set);
            // An example may be too large where nothing is renamed.
            if clauses > 65_534 || literals > 999_999 {
                continue;
            }
            let clauses = &mut out[..4 * (clauses + literals) as usize];
            library::convert(table, options, &set, clauses);
            let [lines, _] = library::tidy(clauses, MOST_VARIABLES, &mut kept, &mut changes);
            let told = || changes.split(|&byte| byte == b'\n').take(lines as usize);
            let word = |line: &[u8]| line.split(|&byte| byte == b'\t').nth(1).map(<[u8]>::to_vec);
            let gone = ["tautology", "repeat", "literal"].map(|one| {
                let is_one = |line: &&[u8]| word(line).as_deref() == Some(one.as_bytes());
                told().filter(is_one).count().to_string()
            });
            let four = |four: &[u8]| i32::from_le_bytes([four[0], four[1], four[2], four[3]]);
            let numbers: Vec<String> = clauses
                .chunks_exact(4)
                .map(|bytes| four(bytes).to_string())
                .collect();
            println!(
                "{number}\t{name}\t{}\t{}",
                gone.join("\t"),
                numbers.join(" ")
            );
        }
    }
}
