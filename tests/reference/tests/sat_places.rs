//! The place of a refused text, held against its meaning on all short texts: which beginnings of a text also begin an
//! accepted text.

use reference::sat_reader::table_bytes;

/// Whether a number is one of 1 to the options, without a leading zero.
fn is_symbol(digits: &str, options: u32) -> bool {
    (1..=options).any(|symbol| symbol.to_string() == digits)
}

/// Whether what stands behind the header is accepted. Each number is written as `n`. From the inside out each pair of
/// parentheses is written as `o` where it holds one formula, and else as `s`. Then a formula is one of few words.
fn is_accepted(body: &str, options: u32) -> bool {
    const FORMULAS: [&str; 8] = ["n", "-n", "o", "-o", "*o", "+o", "*s", "+s"];
    // What stands inside each open parenthesis, and first what stands outside of all.
    let mut open = vec![String::new()];
    let mut rest = body;
    while let Some(first) = rest.chars().next() {
        let digits = rest.find(|letter: char| !letter.is_ascii_digit());
        let (word, after) = rest.split_at(digits.unwrap_or(rest.len()).max(1));
        rest = after;
        match first {
            '(' => open.push(String::new()),
            ')' => {
                let inside = open.pop().unwrap();
                let members: Vec<&str> = inside.split_ascii_whitespace().collect();
                if open.is_empty() || !members.iter().all(|member| FORMULAS.contains(member)) {
                    return false;
                }
                let one = members.len() == 1;
                open.last_mut().unwrap().push(if one { 'o' } else { 's' });
            }
            '0'..='9' if is_symbol(word, options) => open.last_mut().unwrap().push('n'),
            '-' | '*' | '+' | ' ' => open.last_mut().unwrap().push(first),
            _ => return false,
        }
        if open.len() > 65 {
            return false;
        }
    }
    let outside: Vec<&str> = open[0].split_ascii_whitespace().collect();
    open.len() == 1 && outside.len() == 1 && FORMULAS.contains(&outside[0])
}

/// All strings over the letters, of up to this length.
fn strings(letters: &[u8], longest: usize) -> Vec<String> {
    let mut strings = vec![String::new()];
    let mut first = 0;
    for _ in 0..longest {
        let end = strings.len();
        for at in first..end {
            for &letter in letters {
                strings.push(format!("{}{}", strings[at], letter as char));
            }
        }
        first = end;
    }
    strings
}

/// All texts that have a front and then up to so many letters.
struct Texts<'a> {
    options: u32,
    front: String,
    letters: &'a [u8],
    longest: usize,
    /// What is tried to finish a beginning, before all that is open is closed. The longest that is needed is `(*(`, for a
    /// minus with no option.
    endings: Vec<String>,
    /// Texts that were looked at, and how many of them were accepted and could be finished.
    looked: usize,
    accepted: usize,
    finished: usize,
}

impl Texts<'_> {
    fn can_be_finished(&self, body: &str) -> bool {
        self.endings.iter().any(|ending| {
            let begun = format!("{body}{ending}");
            let count = |parenthesis| begun.matches(parenthesis).count();
            let open = count('(').saturating_sub(count(')'));
            is_accepted(&format!("{begun}{}", ")".repeat(open)), self.options)
        })
    }

    /// Looks at the front with these letters and with all that begin with them. `dead` is the length of the longest
    /// beginning that can be finished, where that is not the whole.
    fn look(&mut self, letters: &mut String, dead: Option<usize>) {
        let body = format!("{}{letters}", self.front);
        let is_accepted = dead.is_none() && is_accepted(&body, self.options);
        let longest = match dead {
            Some(length) => length,
            None if is_accepted || self.can_be_finished(&body) => body.len(),
            None => body.len() - 1,
        };
        let header = format!("p sat {}\n", self.options);
        let found = table_bytes(format!("{header}{body}").as_bytes(), usize::MAX)
            .err()
            .map(|refusal| (refusal.number, refusal.place));
        let expected = match is_accepted {
            true => None,
            false => Some((17, (header.len() + longest) as u64)),
        };
        assert_eq!(found, expected, "{header}{body}");
        self.looked += 1;
        self.accepted += usize::from(is_accepted);
        self.finished += usize::from(longest == body.len());
        if letters.len() < self.longest {
            for &letter in self.letters {
                letters.push(letter as char);
                self.look(letters, Some(longest).filter(|&length| length < body.len()));
                letters.pop();
            }
        }
    }
}

/// Looks at all texts with a front and then up to so many of the letters. Gives how many there were, how many could be
/// finished, and how many were accepted.
fn look(options: u32, front: &str, letters: &[u8], longest: usize) -> [usize; 3] {
    let mut texts = Texts {
        options,
        front: front.to_string(),
        letters,
        longest,
        endings: strings(b"1(*", 3),
        looked: 0,
        accepted: 0,
        finished: 0,
    };
    texts.look(&mut String::new(), None);
    [texts.looked, texts.finished, texts.accepted]
}

#[test]
fn the_place_is_the_longest_beginning_that_can_be_finished() {
    for (options, letters, longest) in [
        (0, &b"012()-*+ "[..], 7),
        (1, b"012()-*+ ", 7),
        (12, b"012()-*+ ", 6),
        (1, b"1()-* ", 8),
    ] {
        let [looked, finished, accepted] = look(options, "", letters, longest);
        println!("{options} options: {looked} texts, {finished} begin one, {accepted} are one");
        assert!(looked > 500_000 && finished > 1_000 && accepted > 30);
    }
}

#[test]
fn so_it_is_where_nearly_all_parentheses_are_open() {
    for options in [0, 1] {
        for (opening, most) in [
            ("(", 63),
            ("-(", 63),
            ("+(", 64),
            ("*(*() ", 63),
            ("-(+((", 21),
        ] {
            for open in most - 3..=most {
                let [_, finished, _] = look(options, &opening.repeat(open), b"1()-* ", 4);
                assert!(finished > 5, "{options} {opening} {open}");
            }
        }
    }
}
