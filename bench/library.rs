//! The library's entries, called as a host calls them.

mod entry {
    extern "C" {
        pub fn simbolufa_check(
            table: *const u8,
            table_len: usize,
            options: u32,
            answer: *mut u8,
            answer_len: usize,
        ) -> u32;
        pub fn simbolufa_measure(
            table: *const u8,
            table_len: usize,
            options: u32,
            set: *const u8,
            set_len: usize,
            answer: *mut u8,
            answer_len: usize,
        ) -> u32;
        pub fn simbolufa_choose(
            table: *const u8,
            table_len: usize,
            options: u32,
            allowance: u32,
            set: *mut u8,
            set_len: usize,
            answer: *mut u8,
            answer_len: usize,
        ) -> u32;
        pub fn simbolufa_convert(
            table: *const u8,
            table_len: usize,
            options: u32,
            set: *const u8,
            set_len: usize,
            out: *mut u8,
            out_len: usize,
            answer: *mut u8,
            answer_len: usize,
        ) -> u32;
        pub fn simbolufa_convert_after(
            table: *const u8,
            table_len: usize,
            options: u32,
            taken: u32,
            set: *const u8,
            set_len: usize,
            out: *mut u8,
            out_len: usize,
            answer: *mut u8,
            answer_len: usize,
        ) -> u32;
        pub fn simbolufa_origin(
            table: *const u8,
            table_len: usize,
            options: u32,
            set: *const u8,
            set_len: usize,
            clause: u32,
            option_names: *const u8,
            option_names_len: usize,
            helper_names: *const u8,
            helper_names_len: usize,
            line: *mut u8,
            line_len: usize,
            answer: *mut u8,
            answer_len: usize,
        ) -> u32;
        pub fn simbolufa_origins(
            table: *const u8,
            table_len: usize,
            options: u32,
            set: *const u8,
            set_len: usize,
            option_names: *const u8,
            option_names_len: usize,
            helper_names: *const u8,
            helper_names_len: usize,
            lines: *mut u8,
            lines_len: usize,
            answer: *mut u8,
            answer_len: usize,
        ) -> u32;
        pub fn simbolufa_write_dimacs(
            clauses: *const u8,
            clauses_len: usize,
            variables: u32,
            text: *mut u8,
            text_len: usize,
            answer: *mut u8,
            answer_len: usize,
        ) -> u32;
        pub fn simbolufa_read_dimacs(
            text: *const u8,
            text_len: usize,
            clauses: *mut u8,
            clauses_len: usize,
            answer: *mut u8,
            answer_len: usize,
        ) -> u32;
        pub fn simbolufa_read_sat(
            text: *const u8,
            text_len: usize,
            table: *mut u8,
            table_len: usize,
            answer: *mut u8,
            answer_len: usize,
        ) -> u32;
        pub fn simbolufa_tidy(
            clauses: *const u8,
            clauses_len: usize,
            variables: u32,
            out: *mut u8,
            out_len: usize,
            changes: *mut u8,
            changes_len: usize,
            answer: *mut u8,
            answer_len: usize,
        ) -> u32;
    }
}

/// Makes a call. Gives the four numbers of its answer part.
fn answered(call: impl FnOnce(*mut u8, usize) -> u32) -> [u32; 4] {
    let mut answer = [0; 16];
    let result = call(answer.as_mut_ptr(), answer.len());
    let number = |at: usize| {
        u32::from_le_bytes([answer[at], answer[at + 1], answer[at + 2], answer[at + 3]])
    };
    let numbers = [0, 4, 8, 12].map(number);
    assert_eq!(result, numbers[0], "the call returns its number");
    numbers
}

/// Makes a call that must be accepted. Gives the two values of its answer part.
pub fn accepted(call: impl FnOnce(*mut u8, usize) -> u32) -> [u32; 2] {
    let [number, _, first, second] = answered(call);
    assert_eq!(number, 0, "what is timed is accepted");
    [first, second]
}

// In each call a pointer is lent with its own length, and no two buffers overlap.

pub fn check(table: &[u8], options: u32) -> [u32; 2] {
    accepted(|answer, answer_len| unsafe {
        entry::simbolufa_check(table.as_ptr(), table.len(), options, answer, answer_len)
    })
}

/// Clause and literal total.
pub fn measure(table: &[u8], options: u32, set: &[u8]) -> [u32; 2] {
    accepted(|answer, answer_len| unsafe {
        entry::simbolufa_measure(
            table.as_ptr(),
            table.len(),
            options,
            set.as_ptr(),
            set.len(),
            answer,
            answer_len,
        )
    })
}

/// Picks and clause total.
pub fn choose(table: &[u8], options: u32, allowance: u32, set: &mut [u8]) -> [u32; 2] {
    accepted(|answer, answer_len| unsafe {
        entry::simbolufa_choose(
            table.as_ptr(),
            table.len(),
            options,
            allowance,
            set.as_mut_ptr(),
            set.len(),
            answer,
            answer_len,
        )
    })
}

/// Variables and clauses.
pub fn convert(table: &[u8], options: u32, set: &[u8], out: &mut [u8]) -> [u32; 2] {
    accepted(|answer, answer_len| unsafe {
        entry::simbolufa_convert(
            table.as_ptr(),
            table.len(),
            options,
            set.as_ptr(),
            set.len(),
            out.as_mut_ptr(),
            out.len(),
            answer,
            answer_len,
        )
    })
}

/// Variables and clauses.
pub fn convert_after(
    table: &[u8],
    options: u32,
    taken: u32,
    set: &[u8],
    out: &mut [u8],
) -> [u32; 2] {
    accepted(|answer, answer_len| unsafe {
        entry::simbolufa_convert_after(
            table.as_ptr(),
            table.len(),
            options,
            taken,
            set.as_ptr(),
            set.len(),
            out.as_mut_ptr(),
            out.len(),
            answer,
            answer_len,
        )
    })
}

/// A table with its options, a set and the names of options and helpers.
#[derive(Clone, Copy)]
pub struct Named<'a> {
    pub table: &'a [u8],
    pub options: u32,
    pub set: &'a [u8],
    pub option_names: &'a [u8],
    pub helper_names: &'a [u8],
}

/// Variables and clauses. The line of one clause is written.
pub fn origin(named: Named, clause: u32, line: &mut [u8]) -> [u32; 2] {
    accepted(|answer, answer_len| unsafe {
        entry::simbolufa_origin(
            named.table.as_ptr(),
            named.table.len(),
            named.options,
            named.set.as_ptr(),
            named.set.len(),
            clause,
            named.option_names.as_ptr(),
            named.option_names.len(),
            named.helper_names.as_ptr(),
            named.helper_names.len(),
            line.as_mut_ptr(),
            line.len(),
            answer,
            answer_len,
        )
    })
}

/// Variables and clauses. The lines of all clauses are written.
pub fn origins(named: Named, lines: &mut [u8]) -> [u32; 2] {
    accepted(|answer, answer_len| unsafe {
        entry::simbolufa_origins(
            named.table.as_ptr(),
            named.table.len(),
            named.options,
            named.set.as_ptr(),
            named.set.len(),
            named.option_names.as_ptr(),
            named.option_names.len(),
            named.helper_names.as_ptr(),
            named.helper_names.len(),
            lines.as_mut_ptr(),
            lines.len(),
            answer,
            answer_len,
        )
    })
}

/// Variables and clauses.
pub fn write_dimacs(clauses: &[u8], variables: u32, text: &mut [u8]) -> [u32; 2] {
    accepted(|answer, answer_len| unsafe {
        entry::simbolufa_write_dimacs(
            clauses.as_ptr(),
            clauses.len(),
            variables,
            text.as_mut_ptr(),
            text.len(),
            answer,
            answer_len,
        )
    })
}

/// Variables and clauses.
pub fn read_dimacs(text: &[u8], clauses: &mut [u8]) -> [u32; 2] {
    accepted(|answer, answer_len| unsafe {
        entry::simbolufa_read_dimacs(
            text.as_ptr(),
            text.len(),
            clauses.as_mut_ptr(),
            clauses.len(),
            answer,
            answer_len,
        )
    })
}

/// The four numbers of the answer part. A text of too many nodes is read to its end and refused.
pub fn read_sat(text: &[u8], table: &mut [u8]) -> [u32; 4] {
    answered(|answer, answer_len| unsafe {
        entry::simbolufa_read_sat(
            text.as_ptr(),
            text.len(),
            table.as_mut_ptr(),
            table.len(),
            answer,
            answer_len,
        )
    })
}

/// Lines and kept clauses.
pub fn tidy(clauses: &[u8], variables: u32, out: &mut [u8], changes: &mut [u8]) -> [u32; 2] {
    accepted(|answer, answer_len| unsafe {
        entry::simbolufa_tidy(
            clauses.as_ptr(),
            clauses.len(),
            variables,
            out.as_mut_ptr(),
            out.len(),
            changes.as_mut_ptr(),
            changes.len(),
            answer,
            answer_len,
        )
    })
}
