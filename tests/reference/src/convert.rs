//! Converting a table to clauses under a set of renamed nodes.

use crate::answer::Refusal;
use crate::lists::{Goal, Lists, Side, Walk};
use crate::polarity::{marks, Mark};
use crate::table::Node;
use crate::totals::{rows, total, Size, CLAUSE_CEILING, LITERAL_CEILING};

/// The size of the output under a set.
pub fn measure(nodes: &[Node], renamed: &[bool]) -> Size {
    total(&rows(&Lists::new(nodes), renamed), renamed, &marks(nodes))
}

/// The bytes of clauses of this size: four for each literal and four for each closing zero.
pub fn room(size: Size) -> u64 {
    4 * (size.literals + size.clauses)
}

/// The helper of each renamed node in rising node number, from the variable after the last one that is taken. 0 for all
/// others.
fn helpers(taken: u32, renamed: &[bool]) -> Vec<i32> {
    let mut last = taken as i32;
    let helper = |&renamed: &bool| {
        if !renamed {
            return 0;
        }
        last += 1;
        last
    };
    renamed.iter().map(helper).collect()
}

/// What a part of the output is.
#[derive(Clone, Copy, Debug, PartialEq, Eq)]
pub enum Half {
    /// P of the root.
    Root,
    /// The half of a definition from the helper to the body.
    Down,
    /// The half from the body to the helper.
    Up,
}

/// A run of the output that has one origin: the root or a renamed node. The helper is 0 for the root part.
#[derive(Clone, Copy, Debug, PartialEq, Eq)]
pub struct Part {
    pub node: usize,
    pub helper: i32,
    pub half: Half,
}

impl Part {
    /// Whether the part's clauses are made from P of its node, or from N.
    fn positive(self) -> bool {
        self.half != Half::Up
    }

    /// The lists whose join the part is.
    fn goals(self) -> Vec<Goal> {
        let body = Goal::Body(Side {
            node: self.node,
            positive: self.positive(),
        });
        match self.half {
            Half::Root => vec![body],
            Half::Down => vec![Goal::Literal(-self.helper), body],
            Half::Up => vec![body, Goal::Literal(self.helper)],
        }
    }
}

/// The parts of the output in order. A part may have no clause.
fn parts(marks: &[Mark], helpers: &[i32]) -> Vec<Part> {
    let mut parts = vec![Part {
        node: marks.len() - 1,
        helper: 0,
        half: Half::Root,
    }];
    for node in (0..marks.len()).filter(|&node| helpers[node] != 0) {
        let helper = helpers[node];
        let halves = [
            (marks[node].positive, Half::Down),
            (marks[node].negative, Half::Up),
        ];
        for (_, half) in halves.into_iter().filter(|(has, _)| *has) {
            parts.push(Part { node, helper, half });
        }
    }
    parts
}

/// Hands over each clause of the output in order, with its part and its number in that part, from 0. The output must be
/// below both ceilings. `taken` is the highest variable in use before: V, or more where guards before this one have
/// helpers.
pub fn each_clause_of_parts(
    nodes: &[Node],
    taken: u32,
    renamed: &[bool],
    mut take: impl FnMut(Part, usize, &[i32]),
) {
    let (lists, helpers) = (Lists::new(nodes), helpers(taken, renamed));
    let sizes = rows(&lists, renamed);
    let mut walk = Walk::new(&lists, &helpers, &sizes);
    for part in parts(&marks(nodes), &helpers) {
        let size = sizes[part.node][usize::from(!part.positive())];
        if size.clauses != 0 {
            let mut number = 0;
            walk.each(&part.goals(), |clause| {
                take(part, number, clause);
                number += 1;
            });
        }
    }
}

/// Hands over each clause of the output in order, as above.
pub fn each_clause(nodes: &[Node], taken: u32, renamed: &[bool], mut take: impl FnMut(&[i32])) {
    each_clause_of_parts(nodes, taken, renamed, |_, _, clause| take(clause));
}

/// The size of the output where it is below both ceilings. Else refusal 5 or 6.
pub fn check_size(nodes: &[Node], renamed: &[bool]) -> Result<Size, Refusal> {
    let size = measure(nodes, renamed);
    if size.clauses >= CLAUSE_CEILING {
        return Err(Refusal::new(5));
    }
    if size.literals >= LITERAL_CEILING {
        return Err(Refusal::new(6));
    }
    Ok(size)
}

/// The variables and the clauses of an output of this size.
pub fn values(taken: u32, renamed: &[bool], size: Size) -> [u32; 2] {
    let helpers = renamed.iter().filter(|&&renamed| renamed).count() as u32;
    [taken + helpers, size.clauses as u32]
}

/// The clause bytes, with variables and clauses, for a buffer of `lent` bytes. Else refusal 5, 6 or 7.
pub fn clause_bytes(
    nodes: &[Node],
    taken: u32,
    renamed: &[bool],
    lent: usize,
) -> Result<(Vec<u8>, [u32; 2]), Refusal> {
    let size = check_size(nodes, renamed)?;
    if room(size) > lent as u64 {
        return Err(Refusal::new(7));
    }
    let mut bytes = Vec::with_capacity(room(size) as usize);
    each_clause(nodes, taken, renamed, |clause| {
        for literal in clause.iter().chain(&[0]) {
            bytes.extend(literal.to_le_bytes());
        }
    });
    Ok((bytes, values(taken, renamed, size)))
}
