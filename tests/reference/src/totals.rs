//! Clause and literal totals under a set of renamed nodes.

use crate::lists::{List, Lists, Side};
use crate::polarity::Mark;

/// The ceiling of a clause total.
pub const CLAUSE_CEILING: u64 = 65_535;
/// The ceiling of a literal total.
pub const LITERAL_CEILING: u64 = 1_000_000;

/// A larger number is kept as this one.
///
/// Nothing below it is lost. Write m(x) for the smaller of x and KEPT. Then m(x + y) = m(m(x) + m(y)), and
/// m(x · y) = m(m(x) · m(y)): where x is over KEPT, both are KEPT if y is 1 or more, and both are 0 if y is 0.
/// A true total is made from 0 and 1 by sums and products. So what is kept is m of the true total,
/// and below KEPT it is the true total. Both ceilings are far below KEPT.
const KEPT: u128 = 1 << 60;

fn kept(number: u128) -> u64 {
    number.min(KEPT) as u64
}

/// The clauses of a list and the literals in all of them.
#[derive(Clone, Copy, Debug, PartialEq, Eq)]
pub struct Size {
    pub clauses: u64,
    pub literals: u64,
}

impl Size {
    pub const NONE: Size = Size {
        clauses: 0,
        literals: 0,
    };
    pub const EMPTY: Size = Size {
        clauses: 1,
        literals: 0,
    };
    pub const UNIT: Size = Size {
        clauses: 1,
        literals: 1,
    };

    pub fn followed_by(self, right: Size) -> Size {
        Size {
            clauses: kept(u128::from(self.clauses) + u128::from(right.clauses)),
            literals: kept(u128::from(self.literals) + u128::from(right.literals)),
        }
    }

    /// Each left clause stands once for each right clause, and the other way round.
    pub fn joined(self, right: Size) -> Size {
        let [left_clauses, left_literals, clauses, literals] =
            [self.clauses, self.literals, right.clauses, right.literals].map(u128::from);
        Size {
            clauses: kept(left_clauses * clauses),
            literals: kept(
                kept(left_literals * clauses) as u128 + kept(left_clauses * literals) as u128,
            ),
        }
    }

    /// The clause total at its ceiling.
    pub fn shown_clauses(self) -> u32 {
        self.clauses.min(CLAUSE_CEILING) as u32
    }

    /// The literal total at its ceiling. It is stated only where the clause total is below its own.
    pub fn shown_literals(self) -> u32 {
        if self.clauses >= CLAUSE_CEILING {
            return LITERAL_CEILING as u32;
        }
        self.literals.min(LITERAL_CEILING) as u32
    }
}

/// The sizes of each node's own P and N.
pub fn rows(lists: &Lists, renamed: &[bool]) -> Vec<[Size; 2]> {
    let mut rows: Vec<[Size; 2]> = Vec::with_capacity(lists.count());
    for node in 0..lists.count() {
        let seen = |side: &Side| match renamed[side.node] {
            true => Size::UNIT,
            false => rows[side.node][usize::from(!side.positive)],
        };
        let size = |positive: bool| match lists.body(Side { node, positive }) {
            List::Unit(_) => Size::UNIT,
            List::Joins(joins) => joins
                .iter()
                .map(|join| join.iter().map(seen).fold(Size::EMPTY, Size::joined))
                .fold(Size::NONE, Size::followed_by),
        };
        let row = [size(true), size(false)];
        rows.push(row);
    }
    rows
}

/// The size of the whole output: P of the root, then the definitions.
pub fn total(rows: &[[Size; 2]], renamed: &[bool], marks: &[Mark]) -> Size {
    let mut total = rows[rows.len() - 1][0];
    for (number, row) in rows
        .iter()
        .enumerate()
        .filter(|(number, _)| renamed[*number])
    {
        if marks[number].positive {
            total = total.followed_by(Size::UNIT.joined(row[0]));
        }
        if marks[number].negative {
            total = total.followed_by(row[1].joined(Size::UNIT));
        }
    }
    total
}
