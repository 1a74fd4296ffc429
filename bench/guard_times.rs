//! Prints a line for each guard: its clauses with nothing renamed, its clauses with the chosen set, the number of
//! helpers, and the library's nanoseconds for choosing, measuring and converting it. Fields are parted by tabs. A
//! folder of guards may be given; else it is the sample.

mod library;
mod tables;
mod timing;

use std::time::Instant;
use tables::{ALLOWANCE, MOST_BYTES};

fn main() {
    let guards = tables::given().unwrap_or_else(tables::sample);
    let mut out = vec![0; MOST_BYTES];
    for guard in guards {
        let (table, options) = (&guard.table, guard.options);
        let mut set = vec![0; table.len() / 5];
        let [plain, _] = library::measure(table, options, &set);
        let mut best = u128::MAX;
        let [mut picks, mut total] = [0, 0];
        for _ in 0..timing::ROUNDS {
            let began = Instant::now();
            [picks, total] = library::choose(table, options, ALLOWANCE, &mut set);
            let [clauses, literals] = library::measure(table, options, &set);
            let room = 4 * (clauses + literals) as usize;
            let [variables, written] = library::convert(table, options, &set, &mut out[..room]);
            best = best.min(began.elapsed().as_nanos());
            assert_eq!([variables, written], [options + picks, total]);
        }
        println!("{plain}\t{total}\t{picks}\t{best}");
    }
}
