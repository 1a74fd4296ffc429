//! Times writing and reading DIMACS text through the library's entries beside the reference's writer and reader, in
//! one run. The texts have as many literals, clauses and variables as a text may have.
//!
//! The library goes through its input twice: a refusal changes no lent byte, so it writes only what it has accepted.
//! The reference keeps the numbers and goes through those. It allocates what it gives, and its writer makes a string
//! of each literal.

mod library;
mod texts;
mod timing;

use std::time::Duration;
use texts::{
    clause_bytes, commented, read_by_reference, spaced, write_by_reference, CLAUSES, LITERALS,
    VARIABLES,
};
use timing::{keep, micros, rate, ratio, ROUNDS};

fn show(name: &str, bytes: usize, [library, reference]: [Duration; 2]) {
    println!(
        "  {name:22}  {bytes:8}  {:9.0}  {:9.0}  {:7.1}  {:9.1}  {:6.2}",
        micros(library),
        micros(reference),
        rate(bytes, library),
        rate(bytes, reference),
        ratio(library, reference)
    );
}

fn main() {
    println!(
        "{LITERALS} literals in {CLAUSES} clauses, {VARIABLES} variables; best of {ROUNDS} rounds"
    );
    println!(
        "  {:22}      text    library  reference  library  reference   ratio",
        ""
    );
    println!(
        "  {:22}     bytes         us         us     MB/s       MB/s  of times",
        ""
    );
    let clauses = clause_bytes();
    let plain = write_by_reference(&clauses, VARIABLES);

    let mut text = vec![0; plain.len()];
    library::write_dimacs(&clauses, VARIABLES, &mut text);
    assert!(text == plain, "both write the same text");
    let times = timing::best([
        &mut || keep(library::write_dimacs(&clauses, VARIABLES, &mut text)),
        &mut || keep(write_by_reference(&clauses, VARIABLES)),
    ]);
    show("written", plain.len(), times);

    let texts = [
        ("read", plain.clone()),
        ("read, after comments", commented(&plain)),
        ("read, with white space", spaced(&plain)),
    ];
    for (name, text) in texts {
        let mut read = vec![0; clauses.len()];
        library::read_dimacs(&text, &mut read);
        assert!(
            read == clauses,
            "{name}: the library gives the clauses back"
        );
        assert!(
            read_by_reference(&text) == clauses,
            "{name}: so does the reference"
        );
        let times = timing::best([
            &mut || keep(library::read_dimacs(&text, &mut read)),
            &mut || keep(read_by_reference(&text)),
        ]);
        show(name, text.len(), times);
    }
}
