//! Reading DIMACS text of a formula into a table. A text that is not accepted is refused by 17.

use crate::answer::Refusal;
use crate::cursor::Cursor;
use crate::table::{LONGEST_TABLE, MOST_OPTIONS, NODE_LENGTH};

/// The most parentheses that are open at once.
const MOST_OPEN: usize = 64;
const MOST_NODES: usize = LONGEST_TABLE / NODE_LENGTH;

/// The kinds of the nodes that a text gives.
const FALSE: u8 = 0;
const TRUE: u8 = 1;
const SYMBOL: u8 = 2;
const NOT: u8 = 3;
const AND: u8 = 4;
const OR: u8 = 5;

/// The table so far. Nodes after the most that it may have are counted alone.
#[derive(Default)]
struct Growing {
    bytes: Vec<u8>,
    nodes: usize,
}

impl Growing {
    /// Puts a node behind the others, and gives its number.
    fn put(&mut self, kind: u8, a: usize, b: usize) -> usize {
        if self.nodes < MOST_NODES {
            self.bytes.push(kind);
            self.bytes.extend((a as u16).to_le_bytes());
            self.bytes.extend((b as u16).to_le_bytes());
        }
        self.nodes += 1;
        self.nodes - 1
    }
}

/// A reader behind the header. What takes a formula gives the number of its node. `open` is how many parentheses are
/// open there, so no call is nested deeper than they may be.
struct Reader<'a> {
    cursor: Cursor<'a>,
    options: u32,
    table: Growing,
}

impl Reader<'_> {
    /// Whether some formula can stand here. It needs a symbol, or room for the parentheses of an empty list.
    fn has_formula(&self, open: usize) -> bool {
        open < MOST_OPEN || (open == MOST_OPEN && self.options > 0)
    }

    fn take_formula(&mut self, open: usize) -> Result<usize, Refusal> {
        match self.cursor.next() {
            Some(b'(') => self.take_parentheses(open),
            Some(b'-') => self.take_not(open),
            Some(b'*') => self.take_list(open, AND, TRUE),
            Some(b'+') => self.take_list(open, OR, FALSE),
            _ => self.take_symbol(),
        }
    }

    fn take_symbol(&mut self) -> Result<usize, Refusal> {
        let symbol = self.cursor.take_number(1, self.options)?;
        Ok(self.table.put(SYMBOL, symbol as usize, 0))
    }

    /// Plain parentheses. They are no node.
    fn take_parentheses(&mut self, open: usize) -> Result<usize, Refusal> {
        if !self.has_formula(open + 1) {
            return self.cursor.refused();
        }
        self.cursor.take_one(b'(')?;
        self.cursor.take_white_space();
        let inner = self.take_formula(open + 1)?;
        self.cursor.take_white_space();
        self.cursor.take_one(b')')?;
        Ok(inner)
    }

    fn take_not(&mut self, open: usize) -> Result<usize, Refusal> {
        // Behind the sign is a symbol, or a formula in parentheses.
        if self.options == 0 && !self.has_formula(open + 1) {
            return self.cursor.refused();
        }
        self.cursor.take_one(b'-')?;
        let child = match self.cursor.next() {
            Some(b'(') => self.take_parentheses(open)?,
            _ => self.take_symbol()?,
        };
        Ok(self.table.put(NOT, child, 0))
    }

    /// A list with its sign: its members are folded from the left by a kind, and `empty` is a list of none.
    fn take_list(&mut self, open: usize, fold: u8, empty: u8) -> Result<usize, Refusal> {
        if open == MOST_OPEN {
            return self.cursor.refused();
        }
        self.cursor.take();
        self.cursor.take_one(b'(')?;
        let mut folded = None;
        // The parenthesis parts the first member from what is before.
        let mut is_parted = true;
        loop {
            is_parted |= self.cursor.take_white_space();
            if self.cursor.next() == Some(b')') {
                self.cursor.take();
                return Ok(folded.unwrap_or_else(|| self.table.put(empty, 0, 0)));
            }
            if !is_parted {
                return self.cursor.refused();
            }
            let member = self.take_formula(open + 1)?;
            folded = Some(match folded {
                None => member,
                Some(left) => self.table.put(fold, left, member),
            });
            is_parted = false;
        }
    }
}

/// The table, with the options and the nodes, for a buffer of `lent` bytes. Else refusal 17, 18 or 7.
pub fn table_bytes(text: &[u8], lent: usize) -> Result<(Vec<u8>, [u32; 2]), Refusal> {
    let mut cursor = Cursor::new(text, 17);
    let [options] = cursor.take_header(b"sat", [MOST_OPTIONS])?;
    let mut reader = Reader {
        cursor,
        options,
        table: Growing::default(),
    };
    reader.cursor.take_white_space();
    reader.take_formula(0)?;
    reader.cursor.take_white_space();
    if reader.cursor.next().is_some() {
        return reader.cursor.refused();
    }
    let Growing { bytes, nodes } = reader.table;
    if nodes > MOST_NODES {
        return Err(Refusal::new(18));
    }
    if bytes.len() > lent {
        return Err(Refusal::new(7));
    }
    Ok((bytes, [options, nodes as u32]))
}
