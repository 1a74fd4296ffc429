//! The fields of the line protocol, as `PROTOCOL.md` has them.

/// Buffers over this length are shown by their hash.
const LONGEST_SHOWN: usize = 4_096;

/// What is wrong with a line that is not a request.
pub type Wrong = String;

/// The fields of a request, read from the left.
pub struct Fields<'a> {
    left: std::str::Split<'a, char>,
}

impl<'a> Fields<'a> {
    pub fn new(line: &'a str) -> Fields<'a> {
        Fields {
            left: line.split(' '),
        }
    }

    pub fn word(&mut self) -> Result<&'a str, Wrong> {
        self.left
            .next()
            .ok_or_else(|| "a field is missing".to_string())
    }

    pub fn number(&mut self) -> Result<u32, Wrong> {
        from_decimal(self.word()?)
    }

    /// The bytes of a lent input.
    pub fn input(&mut self) -> Result<Vec<u8>, Wrong> {
        match self.word()? {
            "-" | "=" => Ok(vec![]),
            word => from_parts(word),
        }
    }

    /// An answer part as it is before the call.
    pub fn answer_part(&mut self) -> Result<Vec<u8>, Wrong> {
        self.lent(37, 11)
    }

    /// A lent output other than the answer part, as it is before the call.
    pub fn output(&mut self) -> Result<Vec<u8>, Wrong> {
        self.lent(91, 5)
    }

    /// Bytes whose byte i is `factor` times i plus `first`.
    fn lent(&mut self, factor: usize, first: usize) -> Result<Vec<u8>, Wrong> {
        let length = match self.word()? {
            "-" => 0,
            word => from_decimal(word)? as usize,
        };
        Ok((0..length)
            .map(|i| ((factor * i + first) % 256) as u8)
            .collect())
    }

    /// Nothing may be left.
    pub fn end(&mut self) -> Result<(), Wrong> {
        match self.left.next() {
            None => Ok(()),
            Some(_) => Err("a field too many".to_string()),
        }
    }
}

fn from_decimal(word: &str) -> Result<u32, Wrong> {
    let plain =
        word.bytes().all(|byte| byte.is_ascii_digit()) && (word == "0" || !word.starts_with('0'));
    let number = if plain { word.parse().ok() } else { None };
    number.ok_or_else(|| format!("not a number: {word}"))
}

/// Parts, each of them hex, or hex and how often it is repeated.
fn from_parts(word: &str) -> Result<Vec<u8>, Wrong> {
    let hex = |word| from_hex(word).ok_or_else(|| "a lent input is not lower-case hex".to_string());
    let mut bytes = vec![];
    for part in word.split('+') {
        match part.split_once('*') {
            None => bytes.extend(hex(part)?),
            Some((repeated, count)) => {
                bytes.extend(hex(repeated)?.repeat(from_decimal(count)? as usize))
            }
        }
    }
    Ok(bytes)
}

fn from_hex(word: &str) -> Option<Vec<u8>> {
    let digit = |byte: &u8| match byte {
        b'0'..=b'9' => Some(byte - b'0'),
        b'a'..=b'f' => Some(byte - b'a' + 10),
        _ => None,
    };
    if word.is_empty() || word.len() % 2 != 0 {
        return None;
    }
    word.as_bytes()
        .chunks_exact(2)
        .map(|pair| Some(16 * digit(&pair[0])? + digit(&pair[1])?))
        .collect()
}

/// A buffer as an answer shows it.
pub fn shown(bytes: &[u8]) -> String {
    if bytes.is_empty() {
        return "-".to_string();
    }
    if bytes.len() > LONGEST_SHOWN {
        return format!("#{}:{:016x}", bytes.len(), hash(bytes));
    }
    bytes.iter().map(|byte| format!("{byte:02x}")).collect()
}

/// The 64-bit FNV-1a hash.
fn hash(bytes: &[u8]) -> u64 {
    let next = |hash: u64, byte: &u8| (hash ^ u64::from(*byte)).wrapping_mul(1_099_511_628_211);
    bytes.iter().fold(14_695_981_039_346_656_037, next)
}

#[cfg(test)]
mod tests {
    use super::*;

    #[test]
    fn numbers_are_plain_decimals_of_32_bits() {
        for (word, number) in [("0", 0), ("7", 7), ("4294967295", u32::MAX)] {
            assert_eq!(Fields::new(word).number(), Ok(number));
        }
        for word in ["", "+1", "-1", "01", "00", "1a", "4294967296"] {
            assert!(Fields::new(word).number().is_err(), "{word}");
        }
    }

    #[test]
    fn inputs_are_lower_case_hex_or_empty() {
        assert_eq!(Fields::new("00ff1a").input(), Ok(vec![0, 255, 26]));
        assert_eq!(Fields::new("-").input(), Ok(vec![]));
        assert_eq!(Fields::new("=").input(), Ok(vec![]));
        for word in ["", "0", "FF", "0g", "+1", "é1"] {
            assert!(Fields::new(word).input().is_err(), "{word}");
        }
    }

    #[test]
    fn inputs_may_be_written_in_parts() {
        assert_eq!(
            Fields::new("00+01ff*2+02").input(),
            Ok(vec![0, 1, 255, 1, 255, 2])
        );
        assert_eq!(Fields::new("07*0").input(), Ok(vec![]));
        for word in ["+", "00+", "*2", "00*", "00*02", "00*2*2", "00+-", "="] {
            assert_eq!(Fields::new(word).input().is_err(), word != "=", "{word}");
        }
    }

    #[test]
    fn an_answer_part_is_filled_before_the_call() {
        assert_eq!(
            Fields::new("8").answer_part(),
            Ok(vec![11, 48, 85, 122, 159, 196, 233, 14])
        );
        assert_eq!(Fields::new("0").answer_part(), Ok(vec![]));
        assert_eq!(Fields::new("-").answer_part(), Ok(vec![]));
        assert!(Fields::new("=").answer_part().is_err());
    }

    #[test]
    fn an_output_is_filled_in_another_way() {
        assert_eq!(Fields::new("4").output(), Ok(vec![5, 96, 187, 22]));
    }

    #[test]
    fn fields_are_parted_by_one_space() {
        let mut fields = Fields::new("a 1");
        assert_eq!(
            (fields.word(), fields.number(), fields.end()),
            (Ok("a"), Ok(1), Ok(()))
        );
        assert!(fields.word().is_err());
        let mut spaced = Fields::new("a  1");
        assert_eq!(spaced.word(), Ok("a"));
        assert!(spaced.number().is_err());
        assert!(Fields::new("a ").end().is_err());
    }

    #[test]
    fn buffers_are_shown_whole_up_to_4096_bytes() {
        assert_eq!(shown(&[]), "-");
        assert_eq!(shown(&[0, 10, 255]), "000aff");
        assert_eq!(shown(&[7; 4_096]), "07".repeat(4_096));
        assert!(shown(&[7; 4_097]).starts_with("#4097:"));
    }

    #[test]
    fn the_hash_is_the_public_one() {
        assert_eq!(hash(b""), 0xcbf2_9ce4_8422_2325);
        assert_eq!(hash(b"a"), 0xaf63_dc4c_8601_ec8c);
        assert_eq!(hash(b"foobar"), 0x8594_4171_f739_67e8);
    }
}
