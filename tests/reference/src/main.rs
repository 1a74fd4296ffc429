//! Answers requests of the line protocol by the rules alone.

mod calls;

use std::io::{self, BufRead, Write};
use std::process::ExitCode;

fn run() -> io::Result<ExitCode> {
    let mut out = io::BufWriter::new(io::stdout().lock());
    for (number, line) in io::stdin().lock().lines().enumerate() {
        match calls::answer(&line?) {
            Ok(answer) => writeln!(out, "{answer}")?,
            Err(wrong) => {
                out.flush()?;
                eprintln!("reference: request {}: {wrong}", number + 1);
                return Ok(ExitCode::from(2));
            }
        }
    }
    out.flush()?;
    Ok(ExitCode::SUCCESS)
}

fn main() -> ExitCode {
    run().unwrap_or_else(|error| {
        eprintln!("reference: {error}");
        ExitCode::from(2)
    })
}
