//! Lines that tell where each clause of a conversion comes from, with the names of its literals.

use crate::answer::Refusal;
use crate::convert::{self, each_clause_of_parts, Half, Part};
use crate::table::Node;

/// The two lists of names, as they are lent.
#[derive(Clone, Copy)]
pub struct Lists<'a> {
    pub options: &'a [u8],
    pub helpers: &'a [u8],
}

/// The names of a list that is to have so many. Each has a newline behind it, at least one byte, and no tab. Else
/// refusal 16.
fn names(list: &[u8], count: usize) -> Result<Vec<&[u8]>, Refusal> {
    let mut names = vec![];
    let mut left = list;
    while let Some(length) = left.iter().position(|&byte| byte == b'\n') {
        names.push(&left[..length]);
        left = &left[length + 1..];
    }
    let is_right = |name: &&[u8]| !name.is_empty() && !name.contains(&b'\t');
    if !left.is_empty() || names.len() != count || !names.iter().all(is_right) {
        return Err(Refusal::new(16));
    }
    Ok(names)
}

/// The word for a part.
fn word(half: Half) -> &'static str {
    match half {
        Half::Root => "root",
        Half::Down => "down",
        Half::Up => "up",
    }
}

/// A clause with its number in the output, its part and its number in that part.
struct Clause<'a> {
    k: usize,
    part: Part,
    number: usize,
    literals: &'a [i32],
}

/// Hands over the pieces of a clause's line. `names` has the name of variable v at v - 1.
fn each_piece(clause: &Clause, names: &[&[u8]], mut take: impl FnMut(&[u8])) {
    let Part { node, helper, half } = clause.part;
    let (k, number) = (clause.k, clause.number);
    let half = word(half);
    take(format!("{k}\t{node}\t{helper}\t{half}\t{number}").as_bytes());
    for &literal in clause.literals {
        take(if literal < 0 { b"\t!" } else { b"\t" });
        take(names[literal.unsigned_abs() as usize - 1]);
    }
    take(b"\n");
}

/// A conversion about which is asked, and the clause that is wanted. Where none is wanted, it is asked about all.
pub struct Asked<'a> {
    nodes: &'a [Node],
    options: u32,
    renamed: &'a [bool],
    wanted: Option<u32>,
    names: Vec<&'a [u8]>,
    values: [u32; 2],
}

impl<'a> Asked<'a> {
    /// Makes the checks that come after those of the table and the set, up to the room. Else refusal 5, 6, 15 or 16.
    pub fn new(
        nodes: &'a [Node],
        options: u32,
        renamed: &'a [bool],
        wanted: Option<u32>,
        lists: Lists<'a>,
    ) -> Result<Asked<'a>, Refusal> {
        let size = convert::check_size(nodes, renamed)?;
        let values = convert::values(options, renamed, size);
        let [variables, clauses] = values;
        if let Some(k) = wanted.filter(|&k| k >= clauses) {
            return Err(Refusal::at(15, k as usize));
        }
        let mut all = names(lists.options, options as usize)?;
        all.extend(names(lists.helpers, (variables - options) as usize)?);
        Ok(Asked {
            nodes,
            options,
            renamed,
            wanted,
            names: all,
            values,
        })
    }

    /// Hands over the pieces of the lines in order.
    fn each_piece(&self, mut take: impl FnMut(&[u8])) {
        let mut k = 0;
        each_clause_of_parts(
            self.nodes,
            self.options,
            self.renamed,
            |part, number, literals| {
                if self.wanted.map_or(true, |wanted| wanted as usize == k) {
                    let clause = Clause {
                        k,
                        part,
                        number,
                        literals,
                    };
                    each_piece(&clause, &self.names, &mut take);
                }
                k += 1;
            },
        );
    }

    /// The bytes of all lines.
    pub fn length(&self) -> u64 {
        let mut length = 0;
        self.each_piece(|piece| length += piece.len() as u64);
        length
    }

    /// The lines, with variables and clauses, for a buffer of `lent` bytes. Else refusal 7. What is far too long is not
    /// made.
    pub fn lines(&self, lent: usize) -> Result<(Vec<u8>, [u32; 2]), Refusal> {
        if self.length() > lent as u64 {
            return Err(Refusal::new(7));
        }
        let mut lines = vec![];
        self.each_piece(|piece| lines.extend(piece));
        Ok((lines, self.values))
    }
}

/// The line of the clause that is wanted, or the lines of all clauses, with variables and clauses, for a buffer of `lent`
/// bytes. Else refusal 5, 6, 15, 16 or 7.
pub fn lines(
    nodes: &[Node],
    options: u32,
    renamed: &[bool],
    wanted: Option<u32>,
    lists: Lists,
    lent: usize,
) -> Result<(Vec<u8>, [u32; 2]), Refusal> {
    Asked::new(nodes, options, renamed, wanted, lists)?.lines(lent)
}

#[cfg(test)]
mod tests {
    use super::*;
    use Node::{And, Equivalent, False, Not, Or, Symbol, True};

    const MOST: usize = usize::MAX;

    /// E = s1 equivalent s2, and E equivalent E.
    const SHARED: [Node; 4] = [Symbol(1), Symbol(2), Equivalent(0, 1), Equivalent(2, 2)];

    fn lists<'a>(options: &'a str, helpers: &'a str) -> Lists<'a> {
        Lists {
            options: options.as_bytes(),
            helpers: helpers.as_bytes(),
        }
    }

    /// The lines of all clauses as a text, with `|` for a tab.
    fn told(nodes: &[Node], options: u32, renamed: &[usize], lists: Lists) -> String {
        let set: Vec<bool> = (0..nodes.len())
            .map(|node| renamed.contains(&node))
            .collect();
        let (whole, values) = super::lines(nodes, options, &set, None, lists, MOST).unwrap();
        let variables = options + renamed.len() as u32;
        let mut single = vec![];
        for k in 0..values[1] {
            let (line, same) = super::lines(nodes, options, &set, Some(k), lists, MOST).unwrap();
            assert_eq!((same, line.last()), (values, Some(&b'\n')));
            single.extend(line);
        }
        assert_eq!((&single, values[0]), (&whole, variables));
        String::from_utf8(whole).unwrap().replace('\t', "|")
    }

    /// The number and the place of the refusal.
    fn refused(wanted: Option<u32>, lists: Lists, lent: usize) -> Option<(u32, u64)> {
        let set = [false, false, true, false];
        let answer = super::lines(&SHARED, 2, &set, wanted, lists, lent);
        answer.err().map(|refusal| (refusal.number, refusal.place))
    }

    #[test]
    fn a_node_with_both_signs_has_a_line_for_each_clause_of_both_halves() {
        assert_eq!(
            told(&SHARED, 2, &[2], lists("JPEG\nHDR\n", "E\n")),
            "0|3|0|root|0|!E|E\n1|3|0|root|1|!E|E\n2|2|3|down|0|!E|!JPEG|HDR\n3|2|3|down|1|!E|!HDR|JPEG\n\
             4|2|3|up|0|!JPEG|!HDR|E\n5|2|3|up|1|JPEG|HDR|E\n"
        );
    }

    #[test]
    fn with_nothing_renamed_every_clause_is_of_the_root() {
        assert_eq!(
            told(&SHARED, 2, &[], lists("a\nb\n", "")),
            "0|3|0|root|0|!a|!b|!a|b\n1|3|0|root|1|!a|!b|!b|a\n2|3|0|root|2|a|b|!a|b\n3|3|0|root|3|a|b|!b|a\n\
             4|3|0|root|4|!a|!b|!a|b\n5|3|0|root|5|!a|!b|!b|a\n6|3|0|root|6|a|b|!a|b\n7|3|0|root|7|a|b|!b|a\n"
        );
    }

    #[test]
    fn helpers_have_the_names_of_their_own_list_in_rising_node_number() {
        let nodes = [Symbol(1), Symbol(3), And(0, 1), Not(2), Or(0, 1), And(3, 4)];
        assert_eq!(
            told(&nodes, 3, &[2, 3, 4], lists("x\ny\nz\n", "and\nnot\nor\n")),
            "0|5|0|root|0|not\n1|5|0|root|1|or\n2|2|4|up|0|!x|!z|and\n3|3|5|down|0|!not|!and\n\
             4|4|6|down|0|!or|x|z\n"
        );
    }

    #[test]
    fn the_line_of_an_empty_clause_ends_after_its_number() {
        assert_eq!(told(&[False], 0, &[], lists("", "")), "0|0|0|root|0\n");
        assert_eq!(
            told(&[False, And(0, 0)], 1, &[], lists("!\n", "")),
            "0|1|0|root|0\n1|1|0|root|1\n"
        );
        // In a half the helper is a literal of its own. A half of no clause has no line.
        assert_eq!(
            told(&[False, Not(0), Not(1)], 0, &[1], lists("", "h\n")),
            "0|2|0|root|0|!h\n1|1|1|up|0|h\n"
        );
        assert_eq!(
            told(&[True, Not(0), Not(1)], 0, &[1], lists("", "h\n")),
            "0|2|0|root|0|!h\n"
        );
    }

    #[test]
    fn with_no_clause_there_is_no_line_and_no_number_is_below() {
        assert_eq!(told(&[True], 0, &[], lists("", "")), "");
        for k in [0, 1, u32::MAX] {
            let answer = super::lines(&[True], 0, &[false], Some(k), lists("", ""), MOST);
            assert_eq!(answer, Err(Refusal::at(15, k as usize)));
        }
    }

    #[test]
    fn a_list_has_exactly_so_many_names() {
        for (list, counts) in [
            ("", vec![0]),
            ("a\n", vec![1]),
            ("\u{80}!\r \0\n", vec![1]),
            ("a\nb\n", vec![2]),
            ("\n", vec![]),
            ("a", vec![]),
            ("a\nb", vec![]),
            ("a\n\n", vec![]),
            ("\na\n", vec![]),
            ("a\tb\n", vec![]),
            ("\t\n", vec![]),
            ("a\n\t", vec![]),
        ] {
            for count in 0..5 {
                let is_right = names(list.as_bytes(), count).is_ok();
                assert_eq!(is_right, counts.contains(&count), "{list:?} {count}");
            }
        }
    }

    #[test]
    fn the_clause_number_is_looked_at_before_the_lists_and_these_before_the_room() {
        let (right, wrong) = (lists("a\nb\n", "h\n"), lists("a\nb", "h\n"));
        assert_eq!(refused(Some(5), right, MOST), None);
        for k in [6, 7, 4_294_967_295] {
            for lists in [right, wrong] {
                assert_eq!(refused(Some(k), lists, 0), Some((15, u64::from(k))));
            }
        }
        for wanted in [None, Some(0), Some(5)] {
            for wrong in [wrong, lists("a\nb\n", "h\ni\n"), lists("a\n", "b\nh\n")] {
                assert_eq!(refused(wanted, wrong, 0), Some((16, 0)));
                assert_eq!(refused(wanted, wrong, MOST), Some((16, 0)));
            }
            assert_eq!(refused(wanted, right, 0), Some((7, 0)));
        }
    }

    #[test]
    fn room_is_exactly_the_length_of_what_is_written() {
        let names = lists("a\nb\n", "h\n");
        // 5 2 3 up 1 a b h, with as many tabs and a newline.
        assert_eq!(refused(Some(5), names, 17), None);
        assert_eq!(refused(Some(5), names, 16), Some((7, 0)));
        let whole = told(&SHARED, 2, &[2], names).len();
        assert_eq!(refused(None, names, whole), None);
        assert_eq!(refused(None, names, whole - 1), Some((7, 0)));
    }

    #[test]
    fn lines_that_are_far_too_long_are_not_made() {
        let mut nodes = vec![Symbol(1)];
        nodes.extend((0..19).map(|below| Or(below, below)));
        let name = "n".repeat(1 << 16) + "\n";
        for wanted in [None, Some(0)] {
            let answer = super::lines(&nodes, 1, &[false; 20], wanted, lists(&name, ""), 1 << 20);
            assert_eq!(answer, Err(Refusal::new(7)));
        }
    }
}
