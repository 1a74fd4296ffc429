//! The reference as a function that a C++ program calls: a request of the line protocol in, its answer out.

#[path = "../reference/src/calls.rs"]
mod calls;

/// Writes the answer to a request, and gives its length.
///
/// # Safety
/// `request` has `length` bytes, and `answer` has `room`, enough for the answer.
#[no_mangle]
pub unsafe extern "C" fn reference_answer(
    request: *const u8,
    length: usize,
    answer: *mut u8,
    room: usize,
) -> usize {
    let line = std::str::from_utf8(std::slice::from_raw_parts(request, length));
    let answered = calls::answer(line.expect("a request is text")).expect("it is a request");
    std::slice::from_raw_parts_mut(answer, room)[..answered.len()]
        .copy_from_slice(answered.as_bytes());
    answered.len()
}
