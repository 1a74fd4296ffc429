//! The operations of the line protocol.

use reference::answer::{host_call, Refusal};
use reference::choose::choose;
use reference::convert;
use reference::polarity::{self, Mark};
use reference::protocol::{shown, Fields, Wrong};
use reference::{dimacs_reader, dimacs_writer, origin, program, sat_reader, set, table, tidy};

/// The answer to a request.
pub fn answer(line: &str) -> Result<String, Wrong> {
    let mut fields = Fields::new(line);
    let operation = match fields.word()? {
        "check" => check,
        "measure" => measure,
        "choose" => choose_set,
        "convert" => convert_table,
        "convert_after" => convert_after,
        "origin" => origin_line,
        "origins" => origin_lines,
        "write_dimacs" => write_dimacs,
        "read_dimacs" => read_dimacs,
        "read_sat" => read_sat,
        "tidy" => tidy_clauses,
        "program" => run_program,
        "marks" => marks,
        "set" => check_set,
        other => return Err(format!("no such operation: {other}")),
    };
    let answer = operation(&mut fields)?;
    fields.end()?;
    Ok(answer)
}

/// Makes a host call that gives its output and its two values, and answers it.
fn written(
    mut out: Vec<u8>,
    mut answer: Vec<u8>,
    call: impl FnOnce(usize) -> Result<(Vec<u8>, [u32; 2]), Refusal>,
) -> String {
    let result = host_call(&mut answer, || {
        let (bytes, values) = call(out.len())?;
        out[..bytes.len()].copy_from_slice(&bytes);
        Ok(values)
    });
    format!("{result} {} {}", shown(&out), shown(&answer))
}

fn check(fields: &mut Fields) -> Result<String, Wrong> {
    let options = fields.number()?;
    let table = fields.input()?;
    let mut answer = fields.answer_part()?;
    let result = host_call(&mut answer, || {
        table::check(&table, options).map(|_| [0, 0])
    });
    Ok(format!("{result} {}", shown(&answer)))
}

fn measure(fields: &mut Fields) -> Result<String, Wrong> {
    let options = fields.number()?;
    let table = fields.input()?;
    let set = fields.input()?;
    let mut answer = fields.answer_part()?;
    let result = host_call(&mut answer, || {
        let nodes = table::check(&table, options)?;
        let renamed = set::check(&nodes, &set)?;
        let size = convert::measure(&nodes, &renamed);
        Ok([size.shown_clauses(), size.shown_literals()])
    });
    Ok(format!("{result} {}", shown(&answer)))
}

fn choose_set(fields: &mut Fields) -> Result<String, Wrong> {
    let options = fields.number()?;
    let allowance = fields.number()?;
    let table = fields.input()?;
    let set = fields.output()?;
    let answer = fields.answer_part()?;
    Ok(written(set, answer, |lent| {
        let nodes = table::check(&table, options)?;
        set::check_length(&nodes, lent)?;
        let choice = choose(&nodes, allowance);
        let set = choice.set.into_iter().map(u8::from).collect();
        Ok((set, [choice.picks, choice.total]))
    }))
}

fn convert_table(fields: &mut Fields) -> Result<String, Wrong> {
    let options = fields.number()?;
    let table = fields.input()?;
    let set = fields.input()?;
    let out = fields.output()?;
    let answer = fields.answer_part()?;
    Ok(written(out, answer, |lent| {
        let nodes = table::check(&table, options)?;
        let renamed = set::check(&nodes, &set)?;
        convert::clause_bytes(&nodes, options, &renamed, lent)
    }))
}

/// The table is checked by the options, and helpers come after what is taken.
fn convert_after(fields: &mut Fields) -> Result<String, Wrong> {
    let options = fields.number()?;
    let taken = fields.number()?;
    let table = fields.input()?;
    let set = fields.input()?;
    let out = fields.output()?;
    let answer = fields.answer_part()?;
    Ok(written(out, answer, |lent| {
        let nodes = table::check(&table, options)?;
        table::check_taken(options, taken)?;
        let renamed = set::check(&nodes, &set)?;
        convert::clause_bytes(&nodes, taken, &renamed, lent)
    }))
}

fn origin_line(fields: &mut Fields) -> Result<String, Wrong> {
    let options = fields.number()?;
    let clause = fields.number()?;
    origin_of(fields, options, Some(clause))
}

fn origin_lines(fields: &mut Fields) -> Result<String, Wrong> {
    let options = fields.number()?;
    origin_of(fields, options, None)
}

/// The origin of a clause, or of all clauses.
fn origin_of(fields: &mut Fields, options: u32, clause: Option<u32>) -> Result<String, Wrong> {
    let table = fields.input()?;
    let set = fields.input()?;
    let option_names = fields.input()?;
    let helper_names = fields.input()?;
    let out = fields.output()?;
    let answer = fields.answer_part()?;
    Ok(written(out, answer, |lent| {
        let nodes = table::check(&table, options)?;
        let renamed = set::check(&nodes, &set)?;
        let lists = origin::Lists {
            options: &option_names,
            helpers: &helper_names,
        };
        origin::lines(&nodes, options, &renamed, clause, lists, lent)
    }))
}

fn write_dimacs(fields: &mut Fields) -> Result<String, Wrong> {
    let variables = fields.number()?;
    let clauses = fields.input()?;
    let text = fields.output()?;
    let answer = fields.answer_part()?;
    Ok(written(text, answer, |lent| {
        dimacs_writer::text(&clauses, variables, lent)
    }))
}

fn read_dimacs(fields: &mut Fields) -> Result<String, Wrong> {
    let text = fields.input()?;
    let clauses = fields.output()?;
    let answer = fields.answer_part()?;
    Ok(written(clauses, answer, |lent| {
        dimacs_reader::clause_bytes(&text, lent)
    }))
}

fn read_sat(fields: &mut Fields) -> Result<String, Wrong> {
    let text = fields.input()?;
    let table = fields.output()?;
    let answer = fields.answer_part()?;
    Ok(written(table, answer, |lent| {
        sat_reader::table_bytes(&text, lent)
    }))
}

/// Two outputs are lent. Where one of them is too short neither is written.
fn tidy_clauses(fields: &mut Fields) -> Result<String, Wrong> {
    let variables = fields.number()?;
    let clauses = fields.input()?;
    let mut out = fields.output()?;
    let mut changes = fields.output()?;
    let mut answer = fields.answer_part()?;
    let result = host_call(&mut answer, || {
        let lent = [out.len(), changes.len()];
        let ([kept, lines], values) = tidy::tidy(&clauses, variables, lent)?;
        out[..kept.len()].copy_from_slice(&kept);
        changes[..lines.len()].copy_from_slice(&lines);
        Ok(values)
    });
    let outputs = format!("{} {}", shown(&out), shown(&changes));
    Ok(format!("{result} {outputs} {}", shown(&answer)))
}

fn run_program(fields: &mut Fields) -> Result<String, Wrong> {
    Ok(shown(&program::printed(&fields.input()?)))
}

fn marks(fields: &mut Fields) -> Result<String, Wrong> {
    let options = fields.number()?;
    let table = fields.input()?;
    Ok(match table::check(&table, options) {
        Ok(nodes) => {
            let numbers: Vec<u8> = polarity::marks(&nodes)
                .into_iter()
                .map(Mark::number)
                .collect();
            format!("0 0 {}", shown(&numbers))
        }
        Err(refusal) => refused(refusal),
    })
}

fn check_set(fields: &mut Fields) -> Result<String, Wrong> {
    let options = fields.number()?;
    let table = fields.input()?;
    let set = fields.input()?;
    Ok(
        match table::check(&table, options).and_then(|nodes| set::check(&nodes, &set)) {
            Ok(_) => "0 0".to_string(),
            Err(refusal) => refused(refusal),
        },
    )
}

fn refused(refusal: Refusal) -> String {
    format!("{} {}", refusal.number, refusal.shown_place())
}

#[cfg(test)]
mod tests {
    use super::answer;

    /// E = s1 equivalent s2, and E equivalent E.
    const SHARED: &str = "0201000000020200000007000001000702000200";

    #[test]
    fn a_check_answers_with_its_number_and_its_answer_part() {
        assert_eq!(
            answer("check 1 0201000000 16").unwrap(),
            "0 00000000000000000000000000000000"
        );
        assert_eq!(
            answer("check 1 0202000000 16").unwrap(),
            "14 0e000000000000000000000000000000"
        );
        assert_eq!(answer("check 1 0202000000 3").unwrap(), "11 0b3055");
        assert_eq!(answer("check 32001 - -").unwrap(), "11 -");
    }

    #[test]
    fn a_measure_answers_with_clauses_and_literals() {
        assert_eq!(
            answer(&format!("measure 2 {SHARED} 00000000 16")).unwrap(),
            "0 00000000000000000800000020000000"
        );
        assert_eq!(
            answer(&format!("measure 2 {SHARED} 00000100 16")).unwrap(),
            "0 00000000000000000600000010000000"
        );
        assert_eq!(
            answer(&format!("measure 2 {SHARED} 000001 16")).unwrap(),
            "4 04000000040000000000000000000000"
        );
    }

    #[test]
    fn a_choice_writes_the_whole_set_and_a_refusal_none_of_it() {
        assert_eq!(
            answer(&format!("choose 2 9 {SHARED} 4 16")).unwrap(),
            "0 00000100 00000000000000000100000006000000"
        );
        assert_eq!(
            answer(&format!("choose 2 0 {SHARED} 4 16")).unwrap(),
            "0 00000000 00000000000000000000000008000000"
        );
        assert_eq!(
            answer(&format!("choose 2 9 {SHARED} 5 16")).unwrap(),
            "4 0560bb1671 04000000040000000000000000000000"
        );
        assert_eq!(
            answer(&format!("choose 2 9 {SHARED} 4 2")).unwrap(),
            "11 0560bb16 0b30"
        );
    }

    #[test]
    fn a_conversion_changes_only_its_own_leading_bytes() {
        assert_eq!(
            answer("convert 1 0201000000 00 10 16").unwrap(),
            "0 0100000000000000dd38 00000000000000000100000001000000"
        );
        assert_eq!(
            answer("convert 1 0201000000 00 7 16").unwrap(),
            "7 0560bb1671cc27 07000000000000000000000000000000"
        );
        assert_eq!(
            answer("convert 1 0100000000 00 - 16").unwrap(),
            "0 - 00000000000000000100000000000000"
        );
    }

    #[test]
    fn a_conversion_after_others_has_helpers_after_what_is_taken() {
        let of = |numbers: &str, set: &str, room: usize| {
            answer(&format!("convert_after {numbers} {SHARED} {set} {room} 16")).unwrap()
        };
        let plain = answer(&format!("convert 2 {SHARED} 00000100 90 16")).unwrap();
        assert_eq!(of("2 2", "00000100", 90), plain);
        // The helper is 8 in each of its places, and nothing else is changed.
        let (clauses, part) = (plain.split(' ').nth(1).unwrap(), "0000000008000000");
        let moved = clauses
            .replace("03000000", "08000000")
            .replace("fdffffff", "f8ffffff");
        assert_eq!(
            of("2 7", "00000100", 90),
            format!("0 {moved} 00000000{part}06000000")
        );
        assert!(of("2 32000", "00000100", 90).ends_with(" 0000000000000000017d000006000000"));
        // By the options come 1, 2, and 3, 12, 13 or 14; then 2 for what is taken, then 4.
        let refused = |number: u8, place: u8| {
            format!("{number} 05 {number:02x}000000{place:02x}0000000000000000000000")
        };
        assert_eq!(of("1 0", "00000101", 1), refused(14, 1));
        assert_eq!(of("1 2", "00000101", 1), refused(14, 1));
        assert_eq!(of("2 1", "00000101", 1), refused(2, 0));
        assert_eq!(of("2 32001", "00000101", 1), refused(2, 0));
        assert_eq!(of("32001 2", "00000101", 1), refused(2, 0));
        assert_eq!(of("2 2", "00000101", 1), refused(4, 3));
        assert_eq!(of("2 2", "00000100", 1), refused(7, 0));
    }

    #[test]
    fn an_origin_changes_only_the_leading_bytes_of_its_line() {
        // The names are `a`, `b` and `h`. The line of clause 5 is 5 2 3 up 1 a b h, with a newline.
        let of = |operation: &str, names: &str, room: usize| {
            answer(&format!("{operation} {SHARED} 00000100 {names} {room} 16")).unwrap()
        };
        assert_eq!(
            of("origin 2 5", "610a620a 680a", 19),
            "0 350932093309757009310961096209680a106b 00000000000000000300000006000000"
        );
        let refused = |number: u8, place: &str| {
            format!("{number} 0560 {number:02x}000000{place}0000000000000000")
        };
        assert_eq!(of("origin 2 5", "610a620a 680a", 2), refused(7, "00000000"));
        assert_eq!(of("origin 2 5", "610a620a =", 2), refused(16, "00000000"));
        assert_eq!(of("origin 2 5", "- 680a", 2), refused(16, "00000000"));
        assert_eq!(of("origin 2 6", "- 680a", 2), refused(15, "06000000"));
        assert_eq!(of("origin 1 6", "- 680a", 2), refused(14, "01000000"));
        assert_eq!(of("origins 2", "610a620a 680a", 2), refused(7, "00000000"));
        assert_eq!(of("origins 2", "- 680a", 2), refused(16, "00000000"));
        assert_eq!(
            answer("origins 0 0000000000 00 - = 13 16").unwrap(),
            "0 300930093009726f6f7409300a 00000000000000000000000001000000"
        );
    }

    #[test]
    fn dimacs_is_written_and_read() {
        assert_eq!(
            answer("write_dimacs 2 feffffff0000000000000000 20 16").unwrap(),
            "0 7020636e66203220320a2d3220300a300a106bc6 00000000000000000200000002000000"
        );
        assert_eq!(
            answer("read_dimacs 7020636e66203220320a2d3220300a300a 13 16").unwrap(),
            "0 feffffff000000000000000049 00000000000000000200000002000000"
        );
        assert_eq!(
            answer("write_dimacs 40001 - 0 16").unwrap(),
            "9 - 09000000000000000000000000000000"
        );
        assert_eq!(
            answer("read_dimacs - - 16").unwrap(),
            "8 - 08000000000000000000000000000000"
        );
    }

    #[test]
    fn the_text_of_a_formula_is_read_into_a_table() {
        // `p sat 1` and a newline, then `-1`.
        let text = "702073617420310a2d31";
        let refused = |number: u8, place: u8| {
            format!(
                "{number} 0560bb1671cc2782dd {number:02x}000000{place:02x}0000000000000000000000"
            )
        };
        assert_eq!(
            answer(&format!("read_sat {text} 11 16")).unwrap(),
            "0 0201000000030000000093 00000000000000000100000002000000"
        );
        assert_eq!(
            answer(&format!("read_sat {text} 9 16")).unwrap(),
            refused(7, 0)
        );
        assert_eq!(
            answer(&format!("read_sat {text}20+31 9 16")).unwrap(),
            refused(17, 11)
        );
        assert_eq!(
            answer(&format!("read_sat {text} 1 4")).unwrap(),
            "11 05 0b30557a"
        );
        assert_eq!(
            answer("read_sat = - 16").unwrap(),
            "17 - 11000000000000000000000000000000"
        );
    }

    #[test]
    fn tidying_changes_the_leading_bytes_of_both_outputs_or_none() {
        // The clauses `1 1`, `1` and `-1 1`. One is kept, and a line tells what went of each: 12, 11 and 14 bytes.
        let clauses = "010000000100000000000000+0100000000000000+ffffffff0100000000000000";
        let lines = "30096c69746572616c09310a310972657065617409300a3209746175746f6c6f677909300a";
        let of = |out: usize, changes: usize| {
            answer(&format!("tidy 1 {clauses} {out} {changes} 16")).unwrap()
        };
        assert_eq!(
            of(10, 39),
            format!("0 0100000000000000dd38 {lines}2c87 00000000000000000300000001000000")
        );
        // Outputs as they are before the call.
        let before = |length: usize| -> String {
            let bytes = (0..length).map(|i| (91 * i + 5) % 256);
            bytes.map(|byte| format!("{byte:02x}")).collect()
        };
        for (out, changes) in [(8, 36), (7, 37), (7, 36), (1, 40), (40, 1)] {
            let outputs = format!("{} {}", before(out), before(changes));
            assert_eq!(
                of(out, changes),
                format!("7 {outputs} 07000000000000000000000000000000")
            );
        }
        assert_eq!(
            answer("tidy 0 0000000000000000 4 11 16").unwrap(),
            "0 00000000 310972657065617409300a 00000000000000000100000001000000"
        );
        assert_eq!(
            answer("tidy 1 01000000 - 0 16").unwrap(),
            "9 - - 09000000000000000000000000000000"
        );
        assert_eq!(
            answer("tidy 1 01000000 1 2 3").unwrap(),
            "11 05 0560 0b3055"
        );
    }

    #[test]
    fn the_program_answers_with_what_it_prints() {
        // `options`, a tab, 0 and a newline.
        assert_eq!(
            answer("program 6f7074696f6e7309300a").unwrap(),
            "72656675736564093109300a"
        );
    }

    #[test]
    fn marks_and_sets_are_answered_without_an_answer_part() {
        let table = "020100000003000000000401000100";
        assert_eq!(answer(&format!("marks 1 {table}")).unwrap(), "0 0 020101");
        assert_eq!(answer(&format!("marks 0 {table}")).unwrap(), "14 0");
        assert_eq!(answer(&format!("set 1 {table} 000100")).unwrap(), "0 0");
        assert_eq!(answer(&format!("set 1 {table} 000101")).unwrap(), "4 2");
        assert_eq!(answer(&format!("set 1 {table} =")).unwrap(), "4 3");
    }

    #[test]
    fn a_line_that_is_no_request_is_not_answered() {
        for line in [
            "",
            "check",
            "check 1 0201000000",
            "check 1 0201000000 16 0",
            "Check 1 - 16",
            " check 1 - 16",
            "convert 1 0201000000 00 = 16",
            "convert_after 1 0201000000 00 8 16",
            "origin 1 0201000000 00 610a - 20 16",
            "origins 1 0 0201000000 00 610a - 20 16",
            "origins 1 0201000000 00 610a 20 16",
            "read_dimacs 00 16",
            "read_sat 00 16",
            "read_sat 00 = 16",
            "tidy 00000000 4 0 16",
            "tidy 1 00000000 4 16",
            "tidy 1 00000000 = 4 16",
        ] {
            assert!(answer(line).is_err(), "{line}");
        }
    }
}
