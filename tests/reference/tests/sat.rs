//! Reading the DIMACS text of a formula: its tables, its limits, and the place of a refusal.

use reference::sat_reader::table_bytes;

/// A node as kind, a and b.
type Node = (u8, u16, u16);

const FALSE: Node = (0, 0, 0);
const TRUE: Node = (1, 0, 0);

fn symbol(number: u16) -> Node {
    (2, number, 0)
}

fn not(child: u16) -> Node {
    (3, child, 0)
}

fn and(left: u16, right: u16) -> Node {
    (4, left, right)
}

fn or(left: u16, right: u16) -> Node {
    (5, left, right)
}

fn bytes(nodes: &[Node]) -> Vec<u8> {
    let mut bytes = vec![];
    for (kind, a, b) in nodes {
        bytes.push(*kind);
        bytes.extend(a.to_le_bytes());
        bytes.extend(b.to_le_bytes());
    }
    bytes
}

/// The place of a text that is not accepted.
fn place(text: &[u8]) -> Option<u64> {
    let refusal = table_bytes(text, usize::MAX).err()?;
    match refusal.number {
        17 => Some(refusal.place),
        number => {
            assert_eq!((number, refusal.place), (18, 0));
            None
        }
    }
}

#[track_caller]
fn accepted(text: &str, options: u32, nodes: &[Node]) {
    let count = nodes.len() as u32;
    assert_eq!(
        table_bytes(text.as_bytes(), usize::MAX),
        Ok((bytes(nodes), [options, count])),
        "{text:?}"
    );
}

/// A formula over up to nine options.
#[track_caller]
fn reads(formula: &str, nodes: &[Node]) {
    accepted(&format!("p sat 9\n{formula}"), 9, nodes);
}

#[track_caller]
fn refused(text: &str, expected: u64) {
    assert_eq!(place(text.as_bytes()), Some(expected), "{text:?}");
}

/// A text of so many options is refused with so much of what follows its header taken.
#[track_caller]
fn stops(options: u32, formula: &str, expected: usize) {
    let header = format!("p sat {options}\n");
    refused(
        &format!("{header}{formula}"),
        (header.len() + expected) as u64,
    );
}

#[track_caller]
fn is_right(options: u32, formula: &str) {
    let text = format!("p sat {options}\n{formula}");
    assert_eq!(place(text.as_bytes()), None, "{text:?}");
}

#[test]
fn each_form_has_its_nodes() {
    reads("3", &[symbol(3)]);
    reads("-3", &[symbol(3), not(0)]);
    reads("(3)", &[symbol(3)]);
    reads("((3))", &[symbol(3)]);
    reads("-(3)", &[symbol(3), not(0)]);
    reads("-((3))", &[symbol(3), not(0)]);
    reads("-(-(-3))", &[symbol(3), not(0), not(1), not(2)]);
    reads("*()", &[TRUE]);
    reads("+()", &[FALSE]);
    reads("*(3)", &[symbol(3)]);
    reads("+(3)", &[symbol(3)]);
    reads("*(3 3)", &[symbol(3), symbol(3), and(0, 1)]);
    reads("+(3 4)", &[symbol(3), symbol(4), or(0, 1)]);
    reads("-( *(1 2) )", &[symbol(1), symbol(2), and(0, 1), not(2)]);
    reads("*((1) (2))", &[symbol(1), symbol(2), and(0, 1)]);
    accepted("p sat 32000\n32000", 32_000, &[symbol(32_000)]);
    accepted("p sat 0\n*()", 0, &[TRUE]);
}

#[test]
fn a_list_is_folded_from_the_left_and_each_fold_follows_its_right_part() {
    reads(
        "*(1 2 3)",
        &[symbol(1), symbol(2), and(0, 1), symbol(3), and(2, 3)],
    );
    reads(
        "+(1 *(2 3) -4)",
        &[
            symbol(1),
            symbol(2),
            symbol(3),
            and(1, 2),
            or(0, 3),
            symbol(4),
            not(5),
            or(4, 6),
        ],
    );
    // A list of one is its member, in a list and below a not.
    reads(
        "*(+(1) -(+(2)) (+(3 4)))",
        &[
            symbol(1),
            symbol(2),
            not(1),
            and(0, 2),
            symbol(3),
            symbol(4),
            or(4, 5),
            and(3, 6),
        ],
    );
    // Each empty list is a node of its own.
    reads("+(*() +() *())", &[TRUE, FALSE, or(0, 1), TRUE, or(2, 3)]);
    reads("-(+())", &[FALSE, not(0)]);
    reads("*(*())", &[TRUE]);
}

#[test]
fn white_space_of_every_kind_may_stand_round_a_formula_and_inside_parentheses() {
    accepted("p sat 1\n \t\r\n1 \t\r\n", 1, &[symbol(1)]);
    reads("( \t1\r\n)", &[symbol(1)]);
    reads("-(\n1 )", &[symbol(1), not(0)]);
    reads("+( )", &[FALSE]);
    reads("*(\t\r\n )", &[TRUE]);
    reads("*( 1 2 )", &[symbol(1), symbol(2), and(0, 1)]);
    reads("*(1\n2)", &[symbol(1), symbol(2), and(0, 1)]);
    reads("*(1\r\t2)", &[symbol(1), symbol(2), and(0, 1)]);
    reads("*(1 )", &[symbol(1)]);
    reads("*( 1)", &[symbol(1)]);
    for other in ["\u{b}", "\u{c}", "\0", "\u{1f}", "\u{7f}", ",", "\u{a0}"] {
        stops(2, &format!("*(1{other}2)"), 3);
        stops(2, &format!("{other}1"), 0);
        stops(2, &format!("1{other}"), 1);
    }
}

#[test]
fn comments_hold_any_byte_and_stand_before_the_header() {
    accepted("c\np sat 1\n1", 1, &[symbol(1)]);
    accepted("c p sat\r\0\t\nccc\ncnf\np sat 1\n1", 1, &[symbol(1)]);
    assert_eq!(place(b"c\xff\x80\np sat 1\n1"), None);
    refused("c", 1);
    refused("c\n", 2);
    refused("c\nc", 3);
    refused("C\n", 0);
    refused("c\n p sat 1\n1", 2);
    refused(" c\np sat 1\n1", 0);
    refused("p sat 1\nc\n1", 8);
    refused("p sat 1\n1\nc\n", 10);
}

#[test]
fn the_header_is_one_line_with_blanks_between() {
    accepted("p\tsat \t 1\t \n1", 1, &[symbol(1)]);
    refused("", 0);
    refused("p", 1);
    refused("psat 1\n1", 1);
    refused("p\nsat 1\n1", 1);
    refused("p\rsat 1\n1", 1);
    refused("\np sat 1\n1", 0);
    refused("p SAT 1\n1", 2);
    refused("p cnf 1 1\n1 0\n", 2);
    refused("p sax 1\n1", 4);
    refused("p sat1\n1", 5);
    refused("p sat\n1", 5);
    refused("p sat", 5);
    refused("p sat ", 6);
    refused("p sat x", 6);
    refused("p sat -1\n1", 6);
    refused("p sat +1\n1", 6);
    refused("p sat 01\n1", 7);
    refused("p sat 00\n*()", 7);
    refused("p sat 1", 7);
    refused("p sat 1 ", 8);
    refused("p sat 1 1\n1", 8);
    refused("p sat 1\r\n1", 7);
    refused("p sat 1 \r\n1", 8);
    refused("p sat 1(1)", 7);
    refused("p sat 1\n", 8);
    refused("p sat 1\n ", 9);
}

#[test]
fn options_go_to_32000() {
    is_right(0, "*()");
    is_right(32_000, "*(1 32000)");
    refused("p sat 32001\n1", 10);
    refused("p sat 33000\n1", 10);
    refused("p sat 4000", 10);
    refused("p sat 40000\n1", 10);
    refused("p sat 3200", 10);
    refused("p sat 320000\n1", 11);
    refused("p sat 99999999999999999999\n1", 10);
}

#[test]
fn a_number_stops_at_the_digit_that_takes_it_over_the_options() {
    stops(30, "31", 1);
    stops(30, "300", 2);
    stops(30, "40", 1);
    stops(9, "10", 1);
    stops(5, "6", 0);
    stops(5, "-6", 1);
    stops(1, "12", 1);
    stops(1, "*(12)", 3);
    stops(32_000, "32001", 4);
    stops(32_000, "99999999999999999999", 4);
    stops(9, "0", 0);
    stops(9, "00", 0);
    stops(9, "01", 0);
    stops(9, "-0", 1);
    stops(9, "*(0)", 2);
    stops(0, "1", 0);
    stops(0, "0", 0);
    stops(0, "*(1)", 2);
    stops(0, "-1", 1);
    is_right(30, "*(30 3 29 4)");
    is_right(10, "10");
}

#[test]
fn what_a_formula_may_not_be() {
    stops(9, "- 1", 1);
    stops(9, "--1", 1);
    stops(9, "-*(1)", 1);
    stops(9, "-+(1)", 1);
    stops(9, "-)", 1);
    stops(9, "-", 1);
    stops(9, "-()", 2);
    stops(9, "- (1)", 1);
    stops(9, "* (1)", 1);
    stops(9, "+\n(1)", 1);
    stops(9, "*1", 1);
    stops(9, "*)", 1);
    stops(9, "**(1)", 1);
    stops(9, "*+(1)", 1);
    stops(9, "*-1", 1);
    stops(9, "*", 1);
    stops(9, "()", 1);
    stops(9, "( )", 2);
    stops(9, "(", 1);
    stops(9, ")", 0);
    stops(9, " )", 1);
    stops(9, "(1))", 3);
    stops(9, "(1 2)", 3);
    stops(9, "(1", 2);
    stops(9, "(1 ", 3);
    stops(9, "(1(2))", 2);
    stops(9, "x", 0);
    stops(9, "1x", 1);
    stops(9, "~1", 0);
    stops(9, "=(1 2)", 0);
    stops(9, "xor(1 2)", 0);
}

#[test]
fn members_of_a_list_are_parted() {
    stops(9, "*(1(2))", 3);
    stops(9, "*(1-2)", 3);
    stops(9, "*(1*(2))", 3);
    stops(9, "*(1+(2))", 3);
    stops(9, "*((1)2)", 5);
    stops(9, "*((1)(2))", 5);
    stops(9, "*((1)-2)", 5);
    stops(9, "*(*()*())", 5);
    stops(9, "*(-1-2)", 4);
    stops(9, "*(1,2)", 3);
    stops(9, "*(1", 3);
    stops(9, "*(1 ", 4);
    stops(9, "*(", 2);
    is_right(9, "*(1 (2) -3 -(4) *() +(5))");
}

#[test]
fn behind_the_formula_is_white_space_alone() {
    stops(9, "1 2", 2);
    stops(9, "1\n0", 2);
    stops(9, "1(2)", 1);
    stops(9, "1-2", 1);
    stops(9, "*()*()", 3);
    stops(9, "*() )", 4);
    stops(9, "-1 -", 3);
    stops(9, "(1)\n%", 4);
    is_right(9, "1\n\n \t\r\n");
}

/// So many of these opened, then something, then all closed.
fn nested(opening: &str, times: usize, inside: &str) -> String {
    let opened = opening.repeat(times);
    let open = opened.matches('(').count();
    format!("{opened}{inside}{}", ")".repeat(open))
}

#[test]
fn at_most_64_parentheses_are_open_at_once() {
    for opening in ["(", "-(", "*(", "+(", "*( ", "*(1 ", "(\n"] {
        for inside in ["1", "-1"] {
            for open in [1, 63, 64] {
                is_right(1, &nested(opening, open, inside));
            }
            // A minus can be followed by a symbol, so there it is the parenthesis that stops.
            let taken = 64 * opening.len() + usize::from(opening == "-(");
            stops(1, &nested(opening, 65, inside), taken);
        }
        // The first byte that cannot do without another parenthesis stops: the sign of a list, but not a minus.
        for (inside, more) in [("(1)", 0), ("*()", 0), ("+(1)", 0), ("-(1)", 1)] {
            is_right(1, &nested(opening, 63, inside));
            stops(1, &nested(opening, 64, inside), 64 * opening.len() + more);
        }
    }
    is_right(1, &nested("*(", 64, ""));
    stops(1, &"*(".repeat(64), 128);
    stops(1, &format!("{}*", "*(".repeat(64)), 128);
    stops(1, &format!("{}-", "*(".repeat(64)), 129);
    // What was closed is not open any more.
    let long = nested("(", 63, "1");
    is_right(1, &format!("*({long} {})", nested("+(", 63, "1")));
    stops(
        1,
        &format!("*({long} {})", nested("(", 64, "1")),
        2 + 127 + 1 + 63,
    );
    // Parentheses of all kinds count together.
    is_right(1, &nested("(-(*(+(", 16, "1"));
    stops(1, &nested("(-(*(+(", 16, "(1)"), 16 * 7);
}

#[test]
fn with_no_option_nothing_is_opened_that_could_not_be_finished() {
    // With 61 or 62 open, each of these can be finished.
    for open in [0, 1, 61, 62] {
        for inside in ["*()", "+()", "(*())", "-(*())", "+(*())"] {
            is_right(0, &nested("(", open, inside));
        }
        stops(0, &nested("(", open, "1"), open);
        stops(0, &nested("(", open, "-1"), open + 1);
    }
    // 63: the 64th is that of a list.
    is_right(0, &nested("(", 63, "*()"));
    is_right(0, &nested("(", 63, "+( )"));
    stops(0, &nested("(", 63, "*(*())"), 65);
    stops(0, &nested("(", 63, "*(-(*()))"), 65);
    stops(0, &nested("(", 63, "*(1)"), 65);
    stops(0, &nested("(", 63, "(*())"), 63);
    stops(0, &nested("(", 63, "-(*())"), 63);
    stops(0, &nested("(", 64, "*()"), 63);
    stops(0, &nested("-(", 63, "-1"), 126);
    stops(0, &nested("-(", 64, "*()"), 126);
    is_right(0, &nested("-(", 63, "*()"));
    is_right(0, &nested("*(", 64, ""));
    // 64, all of lists: nothing can stand inside the last.
    for inside in ["(*())", "-(*())", "*()", "+()", "1", "-1"] {
        stops(0, &nested("*(", 64, inside), 128);
    }
    // A minus that cannot be finished, after others in the same list.
    is_right(0, &nested("+(", 62, "*() -(*())"));
    stops(0, &nested("+(", 63, "*() -(*())"), 126 + 4);
    stops(0, &nested("+(", 63, "*() (*())"), 126 + 4);
    is_right(0, &nested("+(", 63, "*() +()"));
}

#[test]
fn a_text_that_ends_too_early_has_its_length_as_place() {
    let text = "c x\np sat 12\n +( -(12) *(1 (2)) )";
    for length in 0..text.len() {
        refused(&text[..length], length as u64);
    }
    is_right(12, " +( -(12) *(1 (2)) )");
}

/// A list of so many times 1 and then one more member. Without that there are twice as many nodes less one.
fn list_with(ones: usize, last: &str) -> String {
    format!("p sat 1\n*({}{last})", "1 ".repeat(ones))
}

fn read(text: &str, lent: usize) -> Result<[u32; 2], (u32, u64)> {
    table_bytes(text.as_bytes(), lent)
        .map(|(_, values)| values)
        .map_err(|refusal| (refusal.number, refusal.place))
}

#[test]
fn there_are_at_most_1024_nodes() {
    assert_eq!(read(&list_with(512, ""), usize::MAX), Ok([1, 1_023]));
    assert_eq!(read(&list_with(511, "-1"), usize::MAX), Ok([1, 1_024]));
    assert_eq!(read(&list_with(511, "-(-1)"), usize::MAX), Err((18, 0)));
    assert_eq!(read(&list_with(513, ""), usize::MAX), Err((18, 0)));
    // An empty list is a node, and so is each fold. Plain parentheses and a list of one are none.
    assert_eq!(read(&list_with(511, "*()"), usize::MAX), Ok([1, 1_023]));
    assert_eq!(read(&list_with(511, "-(+())"), usize::MAX), Ok([1, 1_024]));
    let one = format!("{} ", nested("(+(", 31, "1"));
    assert_eq!(
        read(&list_with(0, &one.repeat(512)), usize::MAX),
        Ok([1, 1_023])
    );
}

#[test]
fn the_last_of_1024_nodes_is_written() {
    let (table, values) = table_bytes(list_with(511, "-1").as_bytes(), 5_120).unwrap();
    assert_eq!((table.len(), values), (5_120, [1, 1_024]));
    // The fold of 511 ones is node 1,020. The last symbol, its not and the root follow.
    let last = [symbol(1), not(1_021), and(1_020, 1_022)];
    assert_eq!(table[5_105..], bytes(&last));
}

#[test]
fn the_text_comes_first_then_the_nodes_and_last_the_room() {
    let (most, over) = (list_with(511, "-1"), list_with(513, ""));
    assert_eq!(read(&most, 5_120), Ok([1, 1_024]));
    assert_eq!(read(&most, 5_119), Err((7, 0)));
    assert_eq!(read(&most, 0), Err((7, 0)));
    assert_eq!(read("p sat 1\n1", 5), Ok([1, 1]));
    assert_eq!(read("p sat 1\n1", 4), Err((7, 0)));
    for lent in [0, 5_119, 5_120, 5_125] {
        assert_eq!(read(&over, lent), Err((18, 0)));
    }
    for text in [&most, &over] {
        for lent in [0, 5_120] {
            let wrong = format!("{text} 1");
            assert_eq!(read(&wrong, lent), Err((17, wrong.len() as u64 - 1)));
        }
    }
}

#[test]
fn long_texts_are_read_to_their_end() {
    const LONG: usize = 1_000_000;
    let length = |text: &str| text.len() as u64;
    let many = list_with(LONG, "");
    assert_eq!(read(&many, 0), Err((18, 0)));
    let wrong = format!("{many})");
    assert_eq!(read(&wrong, 0), Err((17, length(&wrong) - 1)));
    assert_eq!(
        read(&list_with(LONG, "2"), 0),
        Err((17, 11 + 2 * LONG as u64 - 1))
    );
    let (blank, line) = (" \t\r\n".repeat(LONG), "c ()-*+\n".repeat(LONG));
    let spaced = format!("{line}p sat 1\n{blank}*({blank}1{blank}1{blank}){blank}");
    assert_eq!(read(&spaced, 15), Ok([1, 3]));
    assert_eq!(
        read(&spaced[..spaced.len() - blank.len() - 1], 15)
            .unwrap_err()
            .0,
        17
    );
    for (opening, taken) in [("(", 64), ("-(", 129), ("*(", 128), ("+(1 ", 256)] {
        stops(1, &opening.repeat(LONG), taken);
    }
    stops(1, &")".repeat(LONG), 0);
    stops(9, &"1".repeat(LONG), 1);
}
