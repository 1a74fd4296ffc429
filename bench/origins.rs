//! Times the lines that tell where clauses come from: all lines of a table in one call, one line, and a call for each
//! line. A folder of guards may be given, with `names/PROJECT.txt` for each project: then its lists of names are lent.
//!
//! The reference makes the same call: it reads the table, the set and the lists, measures the lines and then makes
//! them. It allocates what it gives. Without a folder an option of the sample has a made-up name, as long as those of
//! Linux are in the mean.

mod library;
mod tables;
mod timing;

use library::Named;
use reference::fast_choose::fast_choose;
use reference::origin::{lines, Lists};
use reference::table::check;
use reference::{node_file, set};
use std::collections::BTreeMap;
use std::rc::Rc;
use std::time::Duration;
use tables::{push, Guard, ALLOWANCE};
use timing::{keep, micros, rate, ratio, ROUNDS};

/// A list of names, and how many it has.
struct List {
    text: Vec<u8>,
    count: usize,
}

impl List {
    fn new(text: Vec<u8>) -> Rc<List> {
        let count = text.iter().filter(|&&byte| byte == b'\n').count();
        Rc::new(List { text, count })
    }

    /// Names that are made up.
    fn made(count: u32) -> Rc<List> {
        let name = |option: u32| format!("defined(CONFIG_OPTION_{option:05})\n");
        List::new((1..=count).map(name).collect::<String>().into_bytes())
    }
}

/// A table with all that is lent, and what it comes to.
struct Case {
    guard: Guard,
    set: Vec<u8>,
    options: Rc<List>,
    helpers: Vec<u8>,
    clauses: u32,
    literals: u32,
    /// The bytes of all lines.
    bytes: usize,
}

impl Case {
    /// A table under its chosen set. A helper is called after its node.
    fn chosen(guard: Guard, options: Rc<List>) -> Case {
        let nodes = check(&guard.table, guard.options).expect("the table is right");
        let set: Vec<u8> = fast_choose(&nodes, ALLOWANCE)
            .set
            .into_iter()
            .map(u8::from)
            .collect();
        Case::new(guard, set, options)
    }

    fn plain(guard: Guard, options: Rc<List>) -> Case {
        let set = vec![0; guard.table.len() / 5];
        Case::new(guard, set, options)
    }

    /// Library and reference agree on all lines, byte for byte, and on the line in the middle.
    fn new(guard: Guard, set: Vec<u8>, options: Rc<List>) -> Case {
        let renamed = (0..set.len()).filter(|&node| set[node] == 1);
        let helpers: String = renamed.map(|node| format!("[{node}]\n")).collect();
        let [clauses, literals] = library::measure(&guard.table, guard.options, &set);
        let mut case = Case {
            guard,
            set,
            options,
            helpers: helpers.into_bytes(),
            clauses,
            literals,
            bytes: 0,
        };
        for wanted in [Some(clauses / 2).filter(|_| clauses > 0), None] {
            let expected = case.by_reference(wanted);
            let mut out = vec![255; expected.len() + 4];
            match wanted {
                Some(clause) => library::origin(case.lent(), clause, &mut out),
                None => library::origins(case.lent(), &mut out),
            };
            assert!(out.starts_with(&expected), "the lines are the same");
            assert!(out.ends_with(&[255; 4]), "there are no more");
            case.bytes = expected.len();
        }
        case
    }

    fn lent(&self) -> Named<'_> {
        Named {
            table: &self.guard.table,
            options: self.guard.options,
            set: &self.set,
            option_names: &self.options.text,
            helper_names: &self.helpers,
        }
    }

    fn by_reference(&self, wanted: Option<u32>) -> Vec<u8> {
        let (table, options) = (&self.guard.table, self.guard.options);
        let nodes = check(table, options).expect("the table is right");
        let renamed = set::check(&nodes, &self.set).expect("the set is right");
        let lists = Lists {
            options: &self.options.text,
            helpers: &self.helpers,
        };
        let made = lines(&nodes, options, &renamed, wanted, lists, usize::MAX);
        made.expect("it is accepted").0
    }

    /// All lines, by a call for each. Each call is lent what the lines before leave.
    fn line_by_line(&self, out: &mut [u8]) {
        let mut at = 0;
        for clause in 0..self.clauses {
            library::origin(self.lent(), clause, &mut out[at..]);
            let end = out[at..].iter().position(|&byte| byte == b'\n');
            at += end.expect("a newline ends the line") + 1;
        }
    }
}

/// Tables that are timed together.
struct Row {
    name: String,
    cases: Vec<Case>,
    often: Often,
}

#[derive(Clone, Copy, PartialEq)]
enum Often {
    InRounds,
    Once,
}

fn timed<const N: usize>(often: Often, calls: [&mut dyn FnMut(); N]) -> [Duration; N] {
    match often {
        Often::InRounds => timing::best(calls),
        Often::Once => timing::once(calls),
    }
}

impl Row {
    fn sum(&self, of: impl Fn(&Case) -> usize) -> usize {
        self.cases.iter().map(of).sum()
    }

    /// The longest output of a case.
    fn room(&self) -> Vec<u8> {
        vec![0; self.cases.iter().map(|case| case.bytes).max().unwrap_or(0)]
    }

    fn lines(&self) -> usize {
        self.sum(|case| case.clauses as usize)
    }

    fn name(&self) -> String {
        let mark = if self.often == Often::Once { "*" } else { "" };
        format!("{}{mark}", self.name)
    }

    /// All lines of each case in one call.
    fn all_lines(&self) -> Sums {
        let mut out = self.room();
        let [library, reference] = timed(
            self.often,
            [
                &mut || {
                    for case in &self.cases {
                        keep(library::origins(case.lent(), &mut out));
                    }
                },
                &mut || {
                    for case in &self.cases {
                        keep(case.by_reference(None));
                    }
                },
            ],
        );
        Sums {
            tables: self.cases.len(),
            lines: self.lines(),
            literals: self.sum(|case| case.literals as usize),
            bytes: self.sum(|case| case.bytes),
            library,
            reference,
        }
    }

    /// The line in the middle of each case, and all lines by a call for each beside one call. The reference goes through
    /// all clauses for each line, so it is not asked for each.
    fn show_one(&self) {
        let with_lines = || self.cases.iter().filter(|case| case.clauses > 0);
        let (mut one, mut each, mut all) = (self.room(), self.room(), self.room());
        let [library, reference] = timed(
            self.often,
            [
                &mut || {
                    for case in with_lines() {
                        keep(library::origin(case.lent(), case.clauses / 2, &mut one));
                    }
                },
                &mut || {
                    for case in with_lines() {
                        keep(case.by_reference(Some(case.clauses / 2)));
                    }
                },
            ],
        );
        let [by_line, at_once] = timing::once([
            &mut || {
                for case in with_lines() {
                    case.line_by_line(&mut each);
                }
            },
            &mut || {
                for case in with_lines() {
                    keep(library::origins(case.lent(), &mut all));
                }
            },
        ]);
        let calls = with_lines().count() as f64;
        println!(
            "  {:29}  {:7}  {:9.2}  {:9.2}  {:6.2}  {:12.0}  {:12.0}  {:8.1}",
            self.name(),
            self.lines(),
            micros(library) / calls,
            micros(reference) / calls,
            ratio(library, reference),
            micros(by_line),
            micros(at_once),
            ratio(by_line, at_once),
        );
    }

    /// Each case by itself, in the best of a few calls: the median and the slowest.
    fn show_slowest(&self) {
        let mut out = self.room();
        let mut times: Vec<(Duration, usize)> = (0..self.cases.len())
            .map(|at| {
                let case = &self.cases[at];
                let mut call = || keep(library::origins(case.lent(), &mut out));
                let best = (0..CALLS).map(|_| timing::once([&mut call])[0]).min();
                (best.expect("there are calls"), at)
            })
            .collect();
        times.sort();
        let (slowest, at) = times[times.len() - 1];
        let case = &self.cases[at];
        println!(
            "  {:29}  {:6}  {:6}  {:9}  {:9.1}  {:9.1}  {:9}  {:8}",
            self.name,
            self.cases.len(),
            case.options.count,
            case.options.text.len(),
            micros(times[times.len() / 2].0),
            micros(slowest),
            case.clauses,
            case.literals,
        );
    }
}

/// What all lines of a row come to.
#[derive(Default)]
struct Sums {
    tables: usize,
    lines: usize,
    literals: usize,
    bytes: usize,
    library: Duration,
    reference: Duration,
}

impl Sums {
    fn add(&mut self, other: &Sums) {
        self.tables += other.tables;
        self.lines += other.lines;
        self.literals += other.literals;
        self.bytes += other.bytes;
        self.library += other.library;
        self.reference += other.reference;
    }

    fn show(&self, name: &str) {
        let library = nanos(self.library);
        println!(
            "  {name:29}  {:6}  {:7}  {:8}  {:9}  {:9.0}  {:9.0}  {:6.2}  {:9.1}  {:9.1}  {:9.1}  {:6.1}",
            self.tables,
            self.lines,
            self.literals,
            self.bytes,
            micros(self.library),
            micros(self.reference),
            ratio(self.library, self.reference),
            micros(self.library) / self.tables as f64,
            library / self.lines as f64,
            library / self.literals as f64,
            rate(self.bytes, self.library),
        );
    }
}

/// How often each guard is timed by itself.
const CALLS: usize = 3;

/// How many names the lists have that are made up. The last is as long as Linux's.
const LIST_COUNTS: [u32; 3] = [100, 1_000, 24_478];

fn nanos(time: Duration) -> f64 {
    time.as_secs_f64() * 1e9
}

/// What a list costs: a guard of no clause with lists of so many names.
fn show_list(name: &str, list: &Rc<List>) {
    let mut table = vec![];
    push(&mut table, 1, 0, 0);
    let options = list.count as u32;
    let case = Case::plain(Guard { options, table }, list.clone());
    let [library, reference] = timing::best([
        &mut || keep(library::origins(case.lent(), &mut [])),
        &mut || keep(case.by_reference(None)),
    ]);
    println!(
        "  {name:29}  {:6}  {:9}  {:9.1}  {:9.1}  {:6.2}  {:9.1}  {:9.2}",
        list.count,
        list.text.len(),
        micros(library),
        micros(reference),
        ratio(library, reference),
        nanos(library) / list.count as f64,
        nanos(library) / list.text.len() as f64,
    );
}

/// A guard over one option.
fn over_symbol(grow: impl FnOnce(&mut Vec<u8>)) -> Vec<Case> {
    let mut table = vec![];
    push(&mut table, 2, 1, 0);
    grow(&mut table);
    vec![Case::plain(Guard { options: 1, table }, List::made(1))]
}

/// The node before with itself.
fn twice(table: &mut Vec<u8>, kind: u8) {
    let below = table.len() / 5 - 1;
    push(table, kind, below, below);
}

/// One clause of 524,288 literals.
fn long_clause(table: &mut Vec<u8>) {
    for _ in 0..19 {
        twice(table, 5);
    }
}

/// 65,534 clauses of one literal.
fn many_clauses(table: &mut Vec<u8>) {
    for _ in 0..14 {
        twice(table, 4);
        let below = table.len() / 5 - 1;
        push(table, 4, below, 0);
    }
    twice(table, 4);
}

/// The equivalence of the examples, with its renamed node.
fn equivalence() -> Vec<Case> {
    let text = include_bytes!("../examples/equivalence.nodes");
    let (options, table) = node_file::read(text).expect("a node file");
    vec![Case::chosen(Guard { options, table }, List::made(options))]
}

fn row(name: &str, cases: Vec<Case>, often: Often) -> Row {
    Row {
        name: name.to_string(),
        cases,
        often,
    }
}

/// Guards by projects, each with its project's list.
fn by_projects(
    guards: Vec<Guard>,
    projects: Vec<String>,
    list: impl Fn(&str, u32) -> Rc<List>,
) -> BTreeMap<String, Vec<Case>> {
    assert_eq!(guards.len(), projects.len(), "each guard is in the index");
    let mut lists = BTreeMap::new();
    let mut found: BTreeMap<String, Vec<Case>> = BTreeMap::new();
    for (guard, project) in guards.into_iter().zip(projects) {
        let options = lists
            .entry(project.clone())
            .or_insert_with(|| list(&project, guard.options));
        let case = Case::chosen(guard, options.clone());
        found.entry(project).or_default().push(case);
    }
    found
}

/// The guards of the given folder.
fn given() -> Option<BTreeMap<String, Vec<Case>>> {
    let folder = tables::given_folder()?;
    let index = std::fs::read_to_string(folder.join("index.tsv")).expect("it has index.tsv");
    let names = folder.join("names");
    if !names.is_dir() {
        return None;
    }
    let list = |project: &str, _: u32| {
        let text = std::fs::read(names.join(format!("{project}.txt")));
        List::new(text.expect("each project has a list of names"))
    };
    let guards = tables::given().expect("a folder is given");
    Some(by_projects(guards, tables::projects_of(&index), list))
}

fn sample() -> BTreeMap<String, Vec<Case>> {
    let index = include_str!("../tests/corpus/index.tsv");
    let made = |_: &str, options: u32| List::made(options);
    by_projects(tables::sample(), tables::projects_of(index), made)
}

fn all(projects: BTreeMap<String, Vec<Case>>) -> Vec<Case> {
    projects.into_values().flatten().collect()
}

fn main() {
    let often = Often::InRounds;
    let rows = [
        row("equivalence", equivalence(), often),
        row(
            "example 10, one long clause",
            over_symbol(long_clause),
            often,
        ),
        row("example 11, many clauses", over_symbol(many_clauses), often),
        row("the sample guards", all(sample()), often),
    ];
    let projects: Vec<Row> = given()
        .into_iter()
        .flatten()
        .map(|(project, cases)| row(&project, cases, Often::Once))
        .collect();

    println!("all lines of a table in one call; all tables of a row in turn, best of {ROUNDS} rounds, * timed once");
    println!(
        "  {:29}  {:>6}  {:>7}  {:>8}  {:>9}  {:>20}  {:>6}  {:>31}",
        "", "", "", "", "", "microseconds a row", "", "the library's time for each"
    );
    println!(
        "  {:29}  {:>6}  {:>7}  {:>8}  {:>9}  {:>9}  {:>9}  {:>6}  {:>9}  {:>9}  {:>9}  {:>6}",
        "",
        "tables",
        "lines",
        "literals",
        "bytes",
        "library",
        "reference",
        "ratio",
        "table, us",
        "line, ns",
        "lit., ns",
        "MB/s"
    );
    for row in &rows {
        row.all_lines().show(&row.name());
    }
    let mut total = Sums::default();
    for row in &projects {
        let sums = row.all_lines();
        sums.show(&row.name());
        total.add(&sums);
    }
    if !projects.is_empty() {
        total.show("all given guards*");
    }

    println!("what a list costs: the guard `true`, which has no clause; microseconds a call");
    println!(
        "  {:29}  {:>6}  {:>9}  {:>9}  {:>9}  {:>6}  {:>9}  {:>9}",
        "", "names", "bytes", "library", "reference", "ratio", "name, ns", "byte, ns"
    );
    for count in LIST_COUNTS {
        show_list("made up", &List::made(count));
    }
    for row in &projects {
        show_list(&row.name, &row.cases[0].options);
    }

    println!("each guard by itself, all its lines, best of {CALLS} calls; microseconds");
    println!(
        "  {:29}  {:>6}  {:>6}  {:>9}  {:>9}  {:>9}  {:>9}  {:>8}",
        "", "guards", "names", "bytes", "median", "slowest", "its lines", "literals"
    );
    rows[3].show_slowest();
    projects.iter().for_each(Row::show_slowest);

    println!("one line, microseconds a call; all lines by a call for each beside one call for all, timed once");
    println!(
        "  {:29}  {:>7}  {:>9}  {:>9}  {:>6}  {:>12}  {:>12}  {:>8}",
        "", "lines", "library", "reference", "ratio", "for each, us", "one call, us", "ratio"
    );
    rows.iter().for_each(Row::show_one);
    // Of the others it would take minutes.
    for row in projects.iter().filter(|row| row.name == "linux") {
        row.show_one();
    }
}
