//! Times choosing through the library's entry beside the reference's fast choosing, in one run.

mod library;
mod tables;
mod timing;

use reference::fast_choose::fast_choose;
use reference::table::check;
use tables::{Shape, ALLOWANCE, COUNTS, SYMBOLS};
use timing::{keep, micros, ratio, ROUNDS};

const OPTIONS: u32 = SYMBOLS as u32;

/// The set, the picks and the total.
type Chosen = (Vec<u8>, [u32; 2]);

fn by_library(table: &[u8]) -> Chosen {
    let mut set = vec![0; table.len() / 5];
    let values = library::choose(table, OPTIONS, ALLOWANCE, &mut set);
    (set, values)
}

/// The reference reads the table too, as the entry does.
fn by_reference(table: &[u8]) -> Chosen {
    let nodes = check(table, OPTIONS).expect("the table is right");
    let choice = fast_choose(&nodes, ALLOWANCE);
    let set = choice.set.into_iter().map(u8::from).collect();
    (set, [choice.picks, choice.total])
}

const SHAPES: [(&str, Shape); 5] = [
    ("chain of ands and ors", tables::chain),
    ("shared ands and ors", tables::shared),
    ("equivalences", tables::equivalences),
    ("nots and implications", tables::nots),
    ("blocks", tables::blocks),
];

fn main() {
    println!("choosing with allowance {ALLOWANCE}; microseconds a call, best of {ROUNDS} rounds");
    for (name, shape) in SHAPES {
        println!("{name}");
        println!("  nodes  picks  total    library  reference  ratio  library's growth");
        let mut before: Option<f64> = None;
        for count in COUNTS {
            let table = tables::grown(shape, count);
            let (set, [picks, total]) = by_library(&table);
            let expected = by_reference(&table);
            assert_eq!((set, [picks, total]), expected, "{name}, {count} nodes");
            let [library, reference] =
                timing::best([&mut || keep(by_library(&table)), &mut || {
                    keep(by_reference(&table))
                }]);
            let growth = before.map_or(String::new(), |before| {
                format!("x {:.1}", micros(library) / before)
            });
            println!(
                "  {count:5}  {picks:5}  {total:5}  {:9.1}  {:9.1}  {:5.2}  {growth}",
                micros(library),
                micros(reference),
                ratio(library, reference)
            );
            before = Some(micros(library));
        }
    }
}
