//! DIMACS texts of formulas, right and damaged.

use crate::conversion::MOST_OPTIONS;
use crate::dimacs_text::{damage, header, noise, spaced, Damage};
use crate::field::{answer_part, input, input_in_parts, room};
use crate::formula::option_count;
use crate::random::Random;
use crate::table::MOST_NODES;
use reference::sat_reader::table_bytes;

/// The most parentheses that may be open at once.
const MOST_OPEN: usize = 64;
/// One in this many requests is the written text, cut at a byte. These go through all of its bytes.
const CUT_TURN: usize = 20;

/// A right text with all forms.
const WRITTEN: &str = "c all forms\n\
    c\n\
    p \tsat  32000\t\n\
    \r\n +( -32000 *(1 -(2)\t( 31999 ))\n *() +( ) -( *(-3 4 ) ) ((5))\r\n  +(6) ) \n";

const DAMAGE: Damage = Damage {
    words: &[
        "0",
        "1",
        "2",
        "01",
        "-1",
        "-0",
        "--1",
        "- 1",
        "-",
        "*",
        "+",
        "*()",
        "+( )",
        "()",
        "-()",
        "-*(1)",
        "* (1)",
        "*(1(2))",
        "(1 2)",
        "(1)",
        "-(1)",
        "31999",
        "32000",
        "32001",
        "320000",
        "99999999999",
        "p",
        "c",
        "sat",
        "cnf",
        "p sat 1\n",
        "c\n",
        "%",
    ],
    bytes: b"0129()()-*+ \t\r\n\0\x0b\x1f\x7f\x80\xffpcsat,",
    parting: b" \t\r\n()",
    fronts: &[
        "",
        "p",
        "p sat ",
        "p sat 0\n",
        "p sat 1\n",
        "p sat 1\n*(",
        "p sat 12\n",
        "p sat 32000\n+(1 ",
        "c",
    ],
};

/// Bytes of which formulas are made.
const FORMULA_BYTES: &[u8] = b"1()-*+ 2\n";

/// A formula that is written from the left. A list's nodes are those of its members and one less than these. So there are
/// twice as many nodes as leaves, less one, and one more for each not.
struct Writer<'a> {
    random: &'a mut Random,
    text: Vec<u8>,
    options: u32,
    /// How many of a hundred formulas are put into a not, and how many into parentheses or a list of one.
    nots: usize,
    wrapped: usize,
    /// How many of a hundred places with white space have more than is needed.
    spaced: usize,
}

impl Writer<'_> {
    fn put(&mut self, word: &str) {
        self.text.extend(word.bytes());
    }

    /// White space where none is needed.
    fn space(&mut self) {
        if self.random.percent(self.spaced) {
            spaced(self.random, &mut self.text, b' ', b" \t\r\n");
        }
    }

    /// White space that parts two members.
    fn part(&mut self) {
        match self.random.percent(self.spaced) {
            true => spaced(self.random, &mut self.text, b' ', b" \t\r\n"),
            false => self.put(" "),
        }
    }

    /// What is between two parentheses, the first of which has this before it.
    fn inside(&mut self, sign: &str, write: impl FnOnce(&mut Self)) {
        self.put(sign);
        self.put("(");
        self.space();
        write(self);
        self.space();
        self.put(")");
    }

    fn symbol(&mut self) {
        let last = self.options as usize;
        let any = self.random.between(1, last);
        let symbol = self.random.pick(&[any, any, any, 1, last]);
        self.put(&symbol.to_string());
    }

    /// A symbol, or an empty list where one may be opened.
    fn leaf(&mut self, room: usize) {
        if self.options > 0 && (room == 0 || self.random.percent(85)) {
            return self.symbol();
        }
        let sign = self.random.pick(&["*", "+"]);
        self.inside(sign, |_| {});
    }

    /// A formula of so many leaves, with up to so many more parentheses open at once.
    fn formula(&mut self, leaves: usize, room: usize) {
        // A leaf may need a parenthesis, and several leaves need one for their list.
        let needed = usize::from(self.options == 0) + usize::from(leaves > 1);
        if self.random.percent(self.nots) {
            if leaves == 1 && self.options > 0 && self.random.percent(60) {
                self.put("-");
                return self.symbol();
            }
            if room > needed {
                return self.inside("-", |inner| inner.formula(leaves, room - 1));
            }
        }
        if room > needed && self.random.percent(self.wrapped) {
            let sign = self.random.pick(&["", "", "*", "+"]);
            return self.inside(sign, |inner| inner.formula(leaves, room - 1));
        }
        match leaves {
            1 => self.leaf(room),
            _ => self.list(leaves, room),
        }
    }

    fn list(&mut self, leaves: usize, room: usize) {
        // In the last lists there is no room for more.
        let needed = 1 + usize::from(self.options == 0);
        let members = match room > needed {
            true => self.random.between(2, leaves.min(9)),
            false => leaves,
        };
        let sign = self.random.pick(&["*", "+"]);
        self.inside(sign, |inner| {
            let mut left = leaves;
            for member in (1..=members).rev() {
                // Each of those that follow has one leaf or more.
                let some = inner.random.between(1, left - member + 1);
                let own = if member == 1 { left } else { some };
                left -= own;
                inner.formula(own, room - 1);
                if member > 1 {
                    inner.part();
                }
            }
        });
    }
}

/// A right formula over the options, of about as many leaves.
fn formula(random: &mut Random, options: u32, leaves: usize) -> Vec<u8> {
    let (nots, wrapped) = (random.pick(&[0, 10, 30]), random.pick(&[0, 10, 40, 80]));
    let (spaced, room) = (random.pick(&[0, 5, 30]), random.pick(&[3, 8, MOST_OPEN]));
    let mut writer = Writer {
        random,
        text: vec![],
        options,
        nots,
        wrapped,
        spaced,
    };
    writer.formula(leaves, room);
    writer.text
}

fn with_header(random: &mut Random, options: u32, formula: &[u8]) -> Vec<u8> {
    let mut text = header(random, &["sat".to_string(), options.to_string()]);
    text.extend(formula);
    if random.percent(40) {
        spaced(random, &mut text, b'\n', b" \t\r\n");
    }
    text
}

fn right(random: &mut Random) -> Vec<u8> {
    let options = option_count(random);
    let (few, some) = (random.between(1, 4), random.between(1, 40));
    let many = random.between(1, MOST_NODES / 2);
    let leaves = match random.below(100) {
        0 | 1 => many,
        2..=40 => few,
        _ => some,
    };
    let formula = formula(random, options, leaves);
    with_header(random, options, &formula)
}

/// A text with about as many nodes as a table may have: from three fewer to three more.
fn near_most_nodes(random: &mut Random) -> Vec<u8> {
    let options = option_count(random);
    let nodes = random.between(MOST_NODES - 3, MOST_NODES + 3);
    let nots = random.pick(&[0, 1, 2, 3, 9, 40]);
    // The leaves of all but the nots.
    let leaves = (nodes - nots + 1) / 2;
    let nots = nodes - (2 * leaves - 1);
    let mut writer = Writer {
        random,
        text: vec![],
        options,
        nots: 0,
        wrapped: 10,
        spaced: 2,
    };
    writer.formula(leaves, MOST_OPEN - nots);
    let mut formula = b"-(".repeat(nots);
    formula.extend(&writer.text);
    formula.extend(b")".repeat(nots));
    with_header(random, options, &formula)
}

/// Openings of parentheses that are right for any option count, and those that need an option.
const OPENINGS: [&str; 8] = ["(", "-(", "*(", "+(", "*( ", "(\n", "+(*() ", "*(-(+()) "];
const OPENINGS_WITH_OPTIONS: [&str; 4] = ["*(1 ", "+(-1\t", "-(*(1 ", "(+(1 (1) "];

/// What may stand inside the last of many parentheses. Whether it is right hangs on their number and on the options.
const INSIDE: [&str; 22] = [
    "", " ", "*()", "+( )", "(*())", "-(*())", "-(+( ))", "*(*())", "*() +()", "1", "-1", "1 1",
    "(1)", "-(1)", "*(1)", "+(-1)", "-(-1)", "*", "+", "-", "(", "-(",
];

/// A text with about as many parentheses open as there may be.
fn near_most_open(random: &mut Random) -> Vec<u8> {
    let options = random.pick(&[0, 0, 1, 1, 12, MOST_OPTIONS]);
    let wanted = random.between(MOST_OPEN - 3, MOST_OPEN + 1);
    let all: Vec<&str> = match options {
        0 => OPENINGS.to_vec(),
        _ => OPENINGS
            .iter()
            .chain(&OPENINGS_WITH_OPTIONS)
            .copied()
            .collect(),
    };
    // Mostly of one kind, else of all.
    let one = random.pick(&all);
    let openings = if random.percent(60) { vec![one] } else { all };
    let (mut text, mut open) = (String::new(), 0);
    while open < wanted {
        let opening = random.pick(&openings);
        let count = |parenthesis: char| opening.matches(parenthesis).count();
        text.push_str(opening);
        open += count('(') - count(')');
    }
    let inside = random.pick(&INSIDE);
    text.push_str(inside);
    open += inside.matches('(').count();
    open -= inside.matches(')').count();
    let closed = random.pick(&[open, open, open, open, open + 1, open - 1]);
    let closing = random.pick(&[")", ")", ")", " )", ")\n"]);
    text.push_str(&closing.repeat(closed));
    with_header(random, options, text.as_bytes())
}

/// Bytes of formulas in any order, in a header's formula or deep inside parentheses.
fn formula_noise(random: &mut Random) -> Vec<u8> {
    let options = random.pick(&[0, 1, 1, 2, 21]);
    let opening = random.pick(&OPENINGS);
    let open = random.pick(&[0, 0, 1, 61, 62, 63, 64]);
    let mut text = opening.repeat(open).into_bytes();
    for _ in 0..random.between(1, 12) {
        text.push(random.pick(FORMULA_BYTES));
    }
    with_header(random, options, &text)
}

/// The field of a long text, and how many nodes it is to have.
fn long(random: &mut Random) -> (String, usize) {
    let (first, repeated, last): (&str, &str, &str) = random.pick(&[
        ("p sat 1\n*(", "1 ", ")"),
        ("p sat 1\n+(", "((((1))))\n", ")"),
        ("p sat 0\n*(", "((*()))\t", ")"),
        ("p sat 32000\n+(", "-32000\r\n", ")\n"),
        ("p sat 2\n*(", "+(1 -(2)) ", ")"),
        ("p sat 1\n", " \t\r\n", "1"),
        ("p sat 1\n*(1", "    ", ")"),
        ("", "c (1)\n", "p sat 1\n1"),
        ("p sat 1\n", "(", "1"),
        ("p sat 1\n", "-(", "1"),
        ("p sat 1\n", "*(1 ", ")"),
        ("p sat 1", "0", "\n1"),
        ("p sat 32000\n", "1", ""),
    ]);
    let times = random.pick(&[256, 341, 511, 512, 513, 2_000, 40_000]);
    let wrong = random.pick(&["", "", "", " x", ")", " 1", "\0"]);
    let last = format!("{last}{wrong}");
    let text = [
        first.as_bytes(),
        &repeated.as_bytes().repeat(times),
        last.as_bytes(),
    ]
    .concat();
    let field = input_in_parts(
        first.as_bytes(),
        repeated.as_bytes(),
        times,
        last.as_bytes(),
    );
    (field, nodes(&text).unwrap_or(MOST_NODES))
}

/// The nodes of a text that is accepted.
fn nodes(text: &[u8]) -> Option<usize> {
    let (_, [_, nodes]) = table_bytes(text, usize::MAX).ok()?;
    Some(nodes as usize)
}

pub fn read_sat(random: &mut Random, turn: usize) -> String {
    if random.below(100) == 0 {
        let (text, nodes) = long(random);
        let table = room(random, 5 * nodes);
        return format!("{text} {table} {}", answer_part(random, 4));
    }
    if turn % CUT_TURN == 0 {
        let cut = turn / CUT_TURN % (WRITTEN.len() + 1);
        let text = input(random, &WRITTEN.as_bytes()[..cut]);
        return format!("{text} 500 16");
    }
    let mut text = match random.below(40) {
        0 => near_most_nodes(random),
        1..=7 => near_most_open(random),
        8..=10 => formula_noise(random),
        11 => noise(random, &DAMAGE),
        12 => {
            let options = random.pick(&[MOST_OPTIONS, MOST_OPTIONS + 1, 10 * MOST_OPTIONS]);
            let formula = formula(random, MOST_OPTIONS, 2);
            with_header(random, options, &formula)
        }
        _ => right(random),
    };
    // The room is that of the text before any fault.
    let nodes = nodes(&text).unwrap_or_else(|| random.below(40));
    let faults = random.pick(&[0, 0, 0, 0, 0, 0, 1, 1, 1, 3]);
    for _ in 0..faults {
        damage(random, &mut text, &DAMAGE);
    }
    let lent = input(random, &text);
    let table = room(random, 5 * nodes);
    format!("{lent} {table} {}", answer_part(random, 4))
}

#[cfg(test)]
mod tests {
    use super::*;
    use reference::protocol::Fields;
    use std::collections::{BTreeMap, BTreeSet};

    /// A request's text, and the lengths of its other two fields as they are written.
    fn requests() -> Vec<(Vec<u8>, String, String)> {
        let mut random = Random::new(1);
        let lent = |request: String| {
            let mut fields = Fields::new(&request);
            let text = fields.input().unwrap();
            let table = fields.word().unwrap().to_string();
            (text, table, fields.word().unwrap().to_string())
        };
        (0..10_000)
            .map(|turn| lent(read_sat(&mut random, turn)))
            .collect()
    }

    /// How many parentheses are open at once, at most, behind the header.
    fn most_open(text: &[u8]) -> usize {
        let (mut open, mut most) = (0usize, 0);
        let comments_end = text.windows(2).position(|two| two == b"p ").unwrap_or(0);
        for byte in &text[comments_end..] {
            match byte {
                b'(' => open += 1,
                b')' => open = open.saturating_sub(1),
                _ => {}
            }
            most = most.max(open);
        }
        most
    }

    #[test]
    fn the_written_text_is_right_and_cut_at_every_byte() {
        let found = table_bytes(WRITTEN.as_bytes(), 500).unwrap().1;
        assert_eq!(found[0], 32_000);
        let texts: BTreeSet<Vec<u8>> = requests().into_iter().map(|request| request.0).collect();
        for cut in 0..=WRITTEN.len() {
            assert!(texts.contains(&WRITTEN.as_bytes()[..cut]), "{cut} bytes");
        }
    }

    #[test]
    fn right_texts_are_right_and_of_all_sizes() {
        let mut random = Random::new(2);
        let counts: BTreeSet<usize> = (0..3_000)
            .map(|_| {
                let text = right(&mut random);
                let shown = String::from_utf8_lossy(&text).into_owned();
                let answer = table_bytes(&text, usize::MAX).map_err(|refusal| refusal.number);
                // A drawn formula may have more nodes than a table.
                assert!(!matches!(answer, Err(7 | 17)), "{shown}");
                answer.map_or(0, |(_, [_, nodes])| nodes as usize)
            })
            .collect();
        assert!((1..60).all(|count| counts.contains(&count)), "{counts:?}");
    }

    #[test]
    fn the_limits_are_asked_on_both_sides() {
        let mut found: BTreeMap<String, usize> = BTreeMap::new();
        for (text, table, answer) in requests() {
            let mut met = |what: String| *found.entry(what).or_insert(0) += 1;
            if answer != "16" {
                met("another answer part".to_string());
                continue;
            }
            let lent: usize = table.parse().unwrap_or(0);
            match table_bytes(&text, usize::MAX) {
                Ok((bytes, [options, nodes])) => {
                    met(format!("open {}", most_open(&text)));
                    met(format!("nodes {nodes}"));
                    met(format!("options {options}"));
                    met(format!(
                        "room {}",
                        (lent + 2).saturating_sub(bytes.len()).min(4)
                    ));
                    if options == 0 {
                        met(format!("no option, open {}", most_open(&text)));
                    }
                }
                Err(refusal) => {
                    met(format!("refused {}", refusal.number));
                    if refusal.number == 17 && refusal.place as usize == text.len() {
                        met("too short".to_string());
                    }
                    if refusal.number == 17 && most_open(&text) == MOST_OPEN + 1 {
                        met("open 65".to_string());
                    }
                    if text.windows(9).any(|part| part == b"sat 32001") {
                        met("options 32001".to_string());
                    }
                }
            }
            if table == "-" {
                met("no table".to_string());
            }
        }
        for what in [
            "another answer part",
            "no table",
            "open 1",
            "open 62",
            "open 63",
            "open 64",
            "open 65",
            "no option, open 63",
            "no option, open 64",
            "nodes 1",
            "nodes 1022",
            "nodes 1023",
            "nodes 1024",
            "options 0",
            "options 1",
            "options 32000",
            "options 32001",
            "refused 17",
            "refused 18",
            "too short",
            "room 1",
            "room 2",
            "room 3",
        ] {
            let count = found.get(what).copied().unwrap_or(0);
            assert!(count > 4, "{what}: {count}");
        }
    }

    #[test]
    fn texts_at_the_most_nodes_and_over_it_are_drawn() {
        let mut random = Random::new(3);
        // A text of 1,025 nodes or more has no count of nodes.
        let mut counts: BTreeMap<Option<usize>, usize> = BTreeMap::new();
        for _ in 0..400 {
            *counts
                .entry(nodes(&near_most_nodes(&mut random)))
                .or_insert(0) += 1;
        }
        for expected in [Some(1_021), Some(1_023), Some(1_024), None] {
            assert!(
                counts.get(&expected).map_or(false, |&count| count > 10),
                "{counts:?}"
            );
        }
    }
}
