//! Times reading DIMACS text by an old build of the library, by the library and by the reference, in one run. The long
//! texts have as many literals, clauses and variables as a text may have. The short ones are those that the library
//! writes for real guards.
//!
//! It is given a folder of guards, and a file where it leaves the long text for other readers. It is compiled with the
//! cfg `old` where there is an old build. Without one, nothing is told of it.
#![allow(unknown_lints, unexpected_cfgs)]

mod library;
mod pass;
mod tables;
mod texts;
mod timing;

use pass::{library_pass, Buffers};
use std::time::Duration;
use tables::Guard;
use texts::{
    clause_bytes, commented, read_by_reference, spaced, write_by_reference, CLAUSES, LITERALS,
    VARIABLES,
};
use timing::{keep, rate, ratio, ROUNDS};

#[cfg(old)]
extern "C" {
    /// The old build's entry. Its symbols are renamed.
    fn old_simbolufa_read_dimacs(
        text: *const u8,
        text_len: usize,
        clauses: *mut u8,
        clauses_len: usize,
        answer: *mut u8,
        answer_len: usize,
    ) -> u32;
}

/// Variables and clauses. No two of the buffers overlap.
#[cfg(old)]
fn read_by_old(text: &[u8], clauses: &mut [u8]) -> [u32; 2] {
    library::accepted(|answer, answer_len| unsafe {
        old_simbolufa_read_dimacs(
            text.as_ptr(),
            text.len(),
            clauses.as_mut_ptr(),
            clauses.len(),
            answer,
            answer_len,
        )
    })
}

/// The library stands in, and its time is not told.
#[cfg(not(old))]
fn read_by_old(text: &[u8], clauses: &mut [u8]) -> [u32; 2] {
    library::read_dimacs(text, clauses)
}

/// What is told of the old build.
fn told(value: f64) -> String {
    if cfg!(old) {
        format!("{value:.2}")
    } else {
        "-".into()
    }
}

/// The text that the library writes for a guard.
fn text_of(guard: &Guard, buffers: &mut Buffers) -> Vec<u8> {
    let passed = library_pass(guard, buffers);
    let text = write_by_reference(&buffers.clauses[..passed.bytes], passed.variables);
    assert!(buffers.text[..text.len()] == text, "both write this text");
    text
}

/// Compares what the three give for a text. Gives the number of clause bytes.
fn agreed(text: &[u8]) -> usize {
    let expected = read_by_reference(text);
    // The two begin with other bytes: what stood there before must not count.
    let (mut old, mut new) = (vec![255; expected.len()], vec![254; expected.len()]);
    let answers = [
        read_by_old(text, &mut old),
        library::read_dimacs(text, &mut new),
    ];
    assert!(old == expected, "the old library gives these clauses");
    assert!(new == expected, "so does the library");
    assert_eq!(answers[0], answers[1], "and both count the same");
    expected.len()
}

/// Times the three on texts: all of them are read, one after another. Prints a line of it.
fn measure(name: &str, texts: &[Vec<u8>]) -> [Duration; 3] {
    let longest = texts.iter().map(|text| agreed(text)).max();
    let mut read = vec![0; longest.expect("there is a text")];
    let mut other = read.clone();
    let times = timing::best([
        &mut || {
            for text in texts {
                keep(read_by_old(text, &mut other));
            }
        },
        &mut || {
            for text in texts {
                keep(library::read_dimacs(text, &mut read));
            }
        },
        &mut || {
            for text in texts {
                keep(read_by_reference(text));
            }
        },
    ]);
    let bytes = texts.iter().map(Vec::len).sum();
    let [old, new, reference] = times;
    println!(
        "  {name:24}  {bytes:8}  {:>8}  {:8.1}  {:9.1}  {:>13}  {:16.2}",
        told(rate(bytes, old)),
        rate(bytes, new),
        rate(bytes, reference),
        told(ratio(old, new)),
        ratio(new, reference)
    );
    times
}

fn main() {
    let guards = tables::given().expect("a folder of guards is given");
    let file = std::env::args().nth(2).expect("a file is given");
    let plain = write_by_reference(&clause_bytes(), VARIABLES);
    std::fs::write(file, &plain).expect("the long text can be written");

    println!(
        "{LITERALS} literals in {CLAUSES} clauses, {VARIABLES} variables; best of {ROUNDS} rounds"
    );
    println!(
        "  {:24}      text       old       new  reference   new over old     new time over",
        ""
    );
    println!(
        "  {:24}     bytes      MB/s      MB/s       MB/s  times as fast  reference's time",
        ""
    );
    measure("long text", &[plain.clone()]);
    measure("after comments", &[commented(&plain)]);
    measure("comments and one clause", &[commented(b"p cnf 1 1\n1 0\n")]);
    measure("with white space", &[spaced(&plain)]);

    let mut buffers = Buffers::new();
    let short: Vec<Vec<u8>> = guards
        .iter()
        .map(|guard| text_of(guard, &mut buffers))
        .collect();
    let name = format!("{} texts of guards", short.len());
    let [old, new, reference] = measure(&name, &short);
    let each = |time: Duration| time.as_secs_f64() * 1e9 / short.len() as f64;
    println!(
        "  nanoseconds a text of guards: old {}, new {:.0}, reference {:.0}",
        told(each(old)),
        each(new),
        each(reference)
    );
}
