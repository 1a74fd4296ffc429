//! `generator SEED COUNT [OPERATIONS]` prints COUNT requests of the line protocol.
//! OPERATIONS are names parted by commas. Without them all requests are checks.

mod ceiling;
mod clause_bytes;
mod conversion;
mod damage;
mod dimacs_text;
mod field;
mod formula;
mod name_list;
mod node_file;
mod origin;
mod parts;
mod random;
mod request;
mod sat_text;
mod set;
mod table;
mod tidying;

use conversion::Chain;
use random::Random;
use request::request;
use std::io::{self, Write};
use std::process::ExitCode;

fn number<T: std::str::FromStr>(argument: Option<&String>) -> Result<T, &'static str> {
    let parsed = argument.and_then(|text| text.parse().ok());
    parsed.ok_or("usage: generator SEED COUNT [OPERATIONS]")
}

fn run(arguments: &[String]) -> Result<(), String> {
    let seed: u64 = number(arguments.first())?;
    let count: usize = number(arguments.get(1))?;
    let operations: Vec<&str> = arguments
        .get(2)
        .map_or("check", String::as_str)
        .split(',')
        .collect();
    let (mut random, mut chain) = (Random::new(seed), Chain::default());
    let mut out = io::BufWriter::new(io::stdout().lock());
    for turn in 0..count {
        let operation = random.pick(&operations);
        let request = request(&mut random, &mut chain, turn, operation)
            .ok_or_else(|| format!("no such operation: {operation}"))?;
        writeln!(out, "{request}").map_err(|error| error.to_string())?;
    }
    out.flush().map_err(|error| error.to_string())
}

fn main() -> ExitCode {
    let arguments: Vec<String> = std::env::args().skip(1).collect();
    match run(&arguments) {
        Ok(()) => ExitCode::SUCCESS,
        Err(wrong) => {
            eprintln!("generator: {wrong}");
            ExitCode::from(2)
        }
    }
}
