//! Refusals, and the answer part of a host call.

/// The number of a refusal and its place.
#[derive(Clone, Copy, Debug, PartialEq, Eq)]
pub struct Refusal {
    pub number: u32,
    pub place: u64,
}

impl Refusal {
    /// A refusal that has no place of its own.
    pub fn new(number: u32) -> Refusal {
        Refusal { number, place: 0 }
    }

    pub fn at(number: u32, place: usize) -> Refusal {
        Refusal {
            number,
            place: place as u64,
        }
    }

    /// The place as 32 bits show it.
    pub fn shown_place(&self) -> u32 {
        u32::try_from(self.place).unwrap_or(u32::MAX)
    }
}

/// The length of the answer part.
const ANSWER_LENGTH: usize = 16;

/// Makes a host call: looks at the answer part first, then asks `call`, which gives its two values
/// on acceptance. Writes the answer part and returns the refusal number, 0 for acceptance.
pub fn host_call(answer: &mut [u8], call: impl FnOnce() -> Result<[u32; 2], Refusal>) -> u32 {
    if answer.len() != ANSWER_LENGTH {
        return 11;
    }
    let numbers = match call() {
        Ok(values) => [0, 0, values[0], values[1]],
        Err(refusal) => [refusal.number, refusal.shown_place(), 0, 0],
    };
    for (bytes, number) in answer.chunks_exact_mut(4).zip(numbers) {
        bytes.copy_from_slice(&number.to_le_bytes());
    }
    numbers[0]
}

#[cfg(test)]
mod tests {
    use super::*;

    #[test]
    fn acceptance_writes_the_two_values() {
        let mut answer = [9; 16];
        assert_eq!(host_call(&mut answer, || Ok([0x01020304, 5])), 0);
        assert_eq!(answer, [0, 0, 0, 0, 0, 0, 0, 0, 4, 3, 2, 1, 5, 0, 0, 0]);
    }

    #[test]
    fn a_refusal_writes_its_number_and_place_and_two_zeros() {
        let mut answer = [9; 16];
        assert_eq!(host_call(&mut answer, || Err(Refusal::at(3, 513))), 3);
        assert_eq!(answer, [3, 0, 0, 0, 1, 2, 0, 0, 0, 0, 0, 0, 0, 0, 0, 0]);
    }

    #[test]
    fn an_answer_part_of_another_length_is_looked_at_first_and_stays() {
        for length in (0..40).filter(|&length| length != 16) {
            let mut answer = vec![9; length];
            assert_eq!(host_call(&mut answer, || Err(Refusal::new(1))), 11);
            assert_eq!(answer, vec![9; length]);
        }
    }

    #[test]
    fn a_place_over_32_bits_shows_as_the_largest_number() {
        let place = |place| Refusal { number: 8, place }.shown_place();
        assert_eq!(place(4_294_967_295), 4_294_967_295);
        assert_eq!(place(4_294_967_296), 4_294_967_295);
    }
}
