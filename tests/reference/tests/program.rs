//! The node file and the program.

use reference::node_file::read;
use reference::program::printed;

/// What is printed for a node file. `|` stands for a tab, in both.
fn shown(input: &str) -> String {
    let output = printed(input.replace('|', "\t").as_bytes());
    String::from_utf8(output).unwrap().replace('\t', "|")
}

#[track_caller]
fn refused(input: &str, number: u32, place: u32) {
    assert_eq!(
        shown(input),
        format!("refused|{number}|{place}\n"),
        "{input:?}"
    );
}

#[test]
fn the_first_line_is_the_option_count() {
    assert_eq!(shown("options|1\n0|2|1|0\n"), "p cnf 1 1\n1 0\n");
    for input in [
        "",
        "\n",
        "options\n",
        "options|\n",
        "options|01\n",
        "options|+1\n",
        "options|-1\n",
        "options|1|\n",
        "options|1|0\n",
        "options 1\n",
        " options|1\n",
        "Options|1\n",
        "options|65536\n",
        "options|99999999999\n",
        "options|1\r\n",
        "options|1",
    ] {
        refused(input, 10, 1);
    }
}

#[test]
fn node_lines_are_numbered_and_have_four_fields() {
    for line in [
        "",
        "1|2|1|0",
        "00|2|1|0",
        "0|2|1",
        "0|2|1|0|0",
        "0|2|1|0|",
        "0|2||0",
        "0|2|01|0",
        "0|256|1|0",
        "0|2|65536|0",
        "0|2|1|65536",
        "0|2|1|0 ",
        "0 2 1 0",
        "0|2|1|0\r",
        "0|2|-1|0",
        "0|2|x|0",
    ] {
        refused(&format!("options|1\n{line}\n"), 10, 2);
        refused(&format!("options|1\n{line}\n\n\n"), 10, 2);
    }
    refused("options|1\n0|2|1|0\n2|2|1|0\n", 10, 3);
    refused("options|1\n0|2|1|0\n0|2|1|0\n", 10, 3);
    refused("options|1\n0|2|1|0\n\n", 10, 3);
}

#[test]
fn a_last_line_without_its_newline_is_wrong() {
    refused("options|1\n0|2|1|0", 10, 2);
    refused("options|1\n0|2|1|0\n1|3|0|0", 10, 3);
    refused("options|1\n0|2|1|0\n ", 10, 3);
}

#[test]
fn the_first_wrong_line_is_the_place() {
    refused("options|1\n0|9\n1|9\n", 10, 2);
    refused("opt|1\n0|9", 10, 1);
}

#[test]
fn other_refusals_come_after_the_lines() {
    refused("options|40000\n", 1, 0);
    refused("options|0\n", 1, 0);
    refused("options|32001\n0|1|0|0\n", 2, 0);
    refused("options|65535\n0|255|0|0\n", 2, 0);
    refused("options|1\n0|255|0|0\n", 3, 0);
    refused("options|1\n0|2|1|0\n1|3|65535|65535\n", 12, 1);
    refused("options|1\n0|2|1|0\n1|3|65535|0\n", 13, 1);
    refused("options|1\n0|2|1|0\n1|4|0|1\n", 13, 1);
    refused("options|1\n0|2|1|0\n1|2|0|0\n", 14, 1);
    refused("options|1\n0|2|1|0\n1|2|2|0\n2|255|0|0\n", 14, 1);
    refused("options|1\n0|2|1|1\n1|255|0|0\n", 12, 0);
    refused("options|65535\n0|255|0|0\n1|3|0\n", 10, 3);
}

fn lines(nodes: usize) -> String {
    let node = |number: usize| format!("{number}|1|0|0\n");
    format!("options|0\n{}", (0..nodes).map(node).collect::<String>())
}

#[test]
fn there_are_at_most_1024_node_lines() {
    assert_eq!(shown(&lines(1_024)), "p cnf 0 0\n");
    refused(&lines(1_025), 10, 1_026);
    refused(&format!("{}x\n", lines(1_024)), 10, 1_026);
}

#[test]
fn the_text_is_at_most_65536_bytes() {
    // 1,024 nodes are at most some 20,000 bytes, so no right text is this long.
    let long = |length: usize| vec![b'\n'; length];
    assert_eq!(read(&long(65_536)).unwrap_err().place, 1);
    assert_eq!(read(&long(65_537)).unwrap_err().place, 0);
    let mut right = lines(2).replace('|', "\t").into_bytes();
    right.resize(65_536, b'x');
    assert_eq!(read(&right).unwrap_err().place, 4);
    right.push(b'x');
    assert_eq!(read(&right).unwrap_err().place, 0);
}

/// s1, then the or or the and of the node before with itself.
fn twice(kind: u32, times: u32) -> String {
    let node = |number: u32| format!("{number}|{kind}|{0}|{0}\n", number - 1);
    let nodes: String = (1..=times).map(node).collect();
    format!("options|1\n0|2|1|0\n{nodes}")
}

#[test]
fn both_buffers_have_65536_bytes() {
    // 2 to the 14 literals and a zero are four bytes too many.
    refused(&twice(5, 14), 7, 0);
    let most = shown(&twice(5, 13));
    assert_eq!(most, format!("p cnf 1 1\n{}0\n", "1 ".repeat(8_192)));
    // The clause bytes fit, and the text does not.
    let wide = twice(5, 13).replace("options|1\n0|2|1|0", "options|32000\n0|2|32000|0");
    assert_eq!(shown(&wide).len(), 14 + 6 * 8_192 + 2);
    let wider =
        twice(5, 13).replace("options|1\n0|2|1|0", "options|32000\n0|2|32000|0") + "14|5|13|12\n";
    refused(&wider, 7, 0);
}

#[test]
fn the_ceilings_are_refused_before_the_room() {
    refused(&twice(5, 20), 6, 0);
}

#[test]
fn at_the_ceiling_all_nodes_are_renamed_and_some_taken_out_again() {
    // With one node renamed there are 2 to the 15 twice, or more. The program renames 14 nodes, and there are 60 clauses.
    assert!(shown(&twice(4, 30)).starts_with("p cnf 15 60\n15 0\n15 0\n15 0\n15 0\n-2 1 0\n"));
    // With 29 times there are 2 to the 14 and 2 to the 15 clauses with node 15 renamed, and they do not fit.
    refused(&twice(4, 29), 7, 0);
}
