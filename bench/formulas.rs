//! Times reading the text of a formula through the library's entry beside the reference's reader, in one run.
//!
//! The long texts have more nodes than a table may have. They are read to their end and then refused, so nothing is
//! written. What is accepted the library goes through twice: a refusal changes no lent byte, so it writes only what it
//! has accepted. The reference goes through it once, and allocates its table.

mod library;
mod tables;
mod texts;
mod timing;

use reference::sat_reader::table_bytes;
use reference::table::{self, Node};
use std::time::Duration;
use tables::{Guard, MOST_NODES};
use texts::{commented, spaced};
use timing::{keep, rate, ratio, ROUNDS};

const OPTIONS: usize = 32_000;
/// The symbols of a long text.
const SYMBOLS: usize = 1_000_000;
/// The longest text of a guard: its shared nodes are written once for each parent.
const LONGEST: usize = 100_000;

fn text_with(formula: &str) -> Vec<u8> {
    format!("p sat {OPTIONS}\n{formula}\n").into_bytes()
}

/// A list of so many members, each made of a symbol.
fn list_of(members: usize, member: impl Fn(usize) -> String) -> Vec<u8> {
    let symbol = |number: usize| 1 + number.wrapping_mul(2_654_435_761) / 128 % OPTIONS;
    let words: Vec<String> = (0..members).map(|number| member(symbol(number))).collect();
    text_with(&format!("*({})", words.join(" ")))
}

/// A symbol, or its not.
fn literal(symbol: usize) -> String {
    let sign = if symbol % 2 == 0 { "-" } else { "" };
    format!("{sign}{symbol}")
}

/// The formula of a node as text. None where it is too long.
fn formula(nodes: &[Node], number: usize) -> Option<String> {
    let part = |child: usize| formula(nodes, child);
    let formula = match nodes[number] {
        Node::False => "+()".to_string(),
        Node::True => "*()".to_string(),
        Node::Symbol(symbol) => symbol.to_string(),
        Node::Not(child) => format!("-({})", part(child)?),
        Node::And(a, b) => format!("*({} {})", part(a)?, part(b)?),
        Node::Or(a, b) => format!("+({} {})", part(a)?, part(b)?),
        Node::Implies(a, b) => format!("+(-({}) {})", part(a)?, part(b)?),
        Node::Equivalent(a, b) => {
            let (a, b) = (part(a)?, part(b)?);
            format!("+(*({a} {b}) *(-({a}) -({b})))")
        }
    };
    Some(formula).filter(|formula| formula.len() <= LONGEST)
}

/// The text of a guard. None where it is refused.
fn text_of(guard: &Guard) -> Option<Vec<u8>> {
    let nodes = table::check(&guard.table, guard.options).expect("the table is right");
    let text = text_with(&formula(&nodes, nodes.len() - 1)?);
    Some(text).filter(|text| table_bytes(text, usize::MAX).is_ok())
}

/// Compares what both give for a text. Gives its nodes, or the number of its refusal.
fn agreed(text: &[u8]) -> Result<u32, u32> {
    let mut table = vec![255; 5 * MOST_NODES];
    let answer = library::read_sat(text, &mut table);
    let expected = match table_bytes(text, table.len()) {
        Ok((bytes, [options, nodes])) => {
            assert!(table[..bytes.len()] == bytes, "both give the same table");
            [0, 0, options, nodes]
        }
        Err(refusal) => [refusal.number, refusal.shown_place(), 0, 0],
    };
    assert_eq!(answer, expected, "both give the same answer");
    match answer[0] {
        0 => Ok(answer[3]),
        number => Err(number),
    }
}

/// Times both on texts: all of them are read, one after another. Prints a line of it.
fn measure(name: &str, texts: &[Vec<u8>]) -> [Duration; 2] {
    let answers: Result<Vec<u32>, u32> = texts.iter().map(|text| agreed(text)).collect();
    let said = match answers {
        Ok(nodes) => format!("{} nodes", nodes.iter().sum::<u32>()),
        Err(number) => format!("refused by {number}"),
    };
    let mut table = vec![0; 5 * MOST_NODES];
    let lent = table.len();
    let times = timing::best([
        &mut || {
            for text in texts {
                keep(library::read_sat(text, &mut table));
            }
        },
        &mut || {
            for text in texts {
                keep(table_bytes(text, lent).map_err(|refusal| refusal.number))
            }
        },
    ]);
    let bytes = texts.iter().map(Vec::len).sum();
    let [library, reference] = times;
    println!(
        "  {name:26}  {bytes:8}  {said:13}  {:7.1}  {:9.1}  {:6.2}",
        rate(bytes, library),
        rate(bytes, reference),
        ratio(library, reference)
    );
    times
}

fn main() {
    println!("{OPTIONS} options; best of {ROUNDS} rounds");
    println!(
        "  {:26}      text                 library  reference   ratio",
        ""
    );
    println!(
        "  {:26}     bytes  answer            MB/s       MB/s  of times",
        ""
    );
    let list = list_of(SYMBOLS, literal);
    measure("a list of symbols", &[list.clone()]);
    measure("a list with white space", &[spaced(&list)]);
    measure(
        "lists in lists",
        &[list_of(SYMBOLS / 4, |symbol| {
            let one = literal(symbol);
            format!("+(*({one} 1) -(+({one} 2)))")
        })],
    );
    let (open, closed) = ("(".repeat(60), ")".repeat(60));
    let nested = |symbol: usize| format!("{open}{symbol}{closed}");
    measure("nested parentheses", &[list_of(SYMBOLS / 20, nested)]);

    // Symbols, and a fold for each of them but one: a node less than may be.
    let most = list_of(MOST_NODES / 2, |symbol| symbol.to_string());
    measure("1,023 nodes", &[most.clone()]);
    measure("1,023 nodes after comments", &[commented(&most)]);
    measure("1,023 nodes, nested", &[list_of(MOST_NODES / 2, nested)]);

    let short: Vec<Vec<u8>> = tables::sample().iter().filter_map(text_of).collect();
    let name = format!("{} texts of guards", short.len());
    let [library, reference] = measure(&name, &short);
    let each = |time: Duration| time.as_secs_f64() * 1e9 / short.len() as f64;
    println!(
        "  nanoseconds a text of guards: library {:.0}, reference {:.0}",
        each(library),
        each(reference)
    );
}
