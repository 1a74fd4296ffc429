//! A text that is read from the left, and what the two forms of DIMACS text have in common.
//!
//! The place of a refused text is the number of bytes before the first byte that no accepted text could
//! have there. So each byte is taken only where what stands so far can still be finished, and the
//! place is how many bytes were taken.

use crate::answer::Refusal;

/// What may stand between the words of a header.
const BLANKS: &[u8] = b" \t";
const WHITE_SPACE: &[u8] = b" \t\r\n";

/// The bytes taken so far, the text, and the number of the refusal of such a text.
pub struct Cursor<'a> {
    text: &'a [u8],
    taken: usize,
    refusal: u32,
}

impl<'a> Cursor<'a> {
    pub fn new(text: &'a [u8], refusal: u32) -> Cursor<'a> {
        Cursor {
            text,
            taken: 0,
            refusal,
        }
    }

    pub fn next(&self) -> Option<u8> {
        self.text.get(self.taken).copied()
    }

    pub fn take(&mut self) {
        self.taken += 1;
    }

    pub fn refused<T>(&self) -> Result<T, Refusal> {
        Err(Refusal::at(self.refusal, self.taken))
    }

    pub fn take_one(&mut self, byte: u8) -> Result<(), Refusal> {
        if self.next() != Some(byte) {
            return self.refused();
        }
        self.take();
        Ok(())
    }

    /// Takes as many of these bytes as there are. Gives whether there was one.
    fn take_any(&mut self, bytes: &[u8]) -> bool {
        let before = self.taken;
        while self.next().map_or(false, |byte| bytes.contains(&byte)) {
            self.take();
        }
        self.taken > before
    }

    /// Takes all white space that stands here. Gives whether there was any.
    pub fn take_white_space(&mut self) -> bool {
        self.take_any(WHITE_SPACE)
    }

    fn take_blanks(&mut self) -> Result<(), Refusal> {
        match self.take_any(BLANKS) {
            true => Ok(()),
            false => self.refused(),
        }
    }

    /// Takes the digits of a number without a leading zero, from `least` to `most`.
    pub fn take_number(&mut self, least: u32, most: u32) -> Result<u32, Refusal> {
        let mut number = match self.next() {
            Some(byte @ b'0'..=b'9') => u32::from(byte - b'0'),
            _ => return self.refused(),
        };
        if number < least || number > most {
            return self.refused();
        }
        self.take();
        while let Some(byte @ b'0'..=b'9') = self.next() {
            let longer = 10 * number + u32::from(byte - b'0');
            if number == 0 || longer > most {
                return self.refused();
            }
            number = longer;
            self.take();
        }
        Ok(number)
    }

    /// Comments and the header. After its word the header has a number up to each of these. Gives the numbers.
    pub fn take_header<const COUNT: usize>(
        &mut self,
        word: &[u8],
        most: [u32; COUNT],
    ) -> Result<[u32; COUNT], Refusal> {
        while self.next() == Some(b'c') {
            while self.next().map_or(false, |byte| byte != b'\n') {
                self.take();
            }
            self.take_one(b'\n')?;
        }
        self.take_one(b'p')?;
        self.take_blanks()?;
        for &byte in word {
            self.take_one(byte)?;
        }
        let mut numbers = [0; COUNT];
        for (number, most) in numbers.iter_mut().zip(most) {
            self.take_blanks()?;
            *number = self.take_number(0, most)?;
        }
        self.take_any(BLANKS);
        self.take_one(b'\n')?;
        Ok(numbers)
    }
}
