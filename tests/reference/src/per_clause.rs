//! Converting clause by clause: each is found by its number, from the root down. It shares neither the totals nor the
//! table of clause lists with the walk of `convert`.
//!
//! The number of a clause of a node says which of the node's lists it is in. In a join the quotient by the right list's
//! clauses is the number of the left clause, and the remainder that of the right one. A list of no literal is not
//! entered: there is nothing to write.

use crate::answer::Refusal;
use crate::polarity::{marks, Mark};
use crate::table::Node;

const CLAUSE_CEILING: u32 = 65_535;
const LITERAL_CEILING: u32 = 1_000_000;

/// The totals of a list, each at its ceiling.
///
/// A list that is entered has fewer clauses than the ceiling. So have the lists that it is made of: each is a part of
/// it, or a factor of a join that has a clause. So what quotients and sums of numbers are made from is exact.
#[derive(Clone, Copy)]
struct Total {
    clauses: u32,
    literals: u32,
}

const NONE: Total = Total {
    clauses: 0,
    literals: 0,
};
const EMPTY: Total = Total {
    clauses: 1,
    literals: 0,
};
const UNIT: Total = Total {
    clauses: 1,
    literals: 1,
};

fn capped(number: u64, ceiling: u32) -> u32 {
    number.min(u64::from(ceiling)) as u32
}

impl Total {
    fn capped(clauses: u64, literals: u64) -> Total {
        Total {
            clauses: capped(clauses, CLAUSE_CEILING),
            literals: capped(literals, LITERAL_CEILING),
        }
    }

    fn followed_by(self, right: Total) -> Total {
        let add = |left: u32, right: u32| u64::from(left) + u64::from(right);
        Total::capped(
            add(self.clauses, right.clauses),
            add(self.literals, right.literals),
        )
    }

    fn joined(self, right: Total) -> Total {
        let times = |left: u32, right: u32| u64::from(left) * u64::from(right);
        Total::capped(
            times(self.clauses, right.clauses),
            times(self.literals, right.clauses) + times(self.clauses, right.literals),
        )
    }
}

/// The totals of P and N.
#[derive(Clone, Copy)]
struct Row {
    p: Total,
    n: Total,
}

impl Row {
    fn turned(self) -> Row {
        Row {
            p: self.n,
            n: self.p,
        }
    }

    fn side(self, positive: bool) -> Total {
        if positive {
            self.p
        } else {
            self.n
        }
    }
}

/// The totals of a node with these own totals, as its parents see it.
fn seen(own: Row, is_renamed: bool) -> Row {
    if is_renamed {
        return Row { p: UNIT, n: UNIT };
    }
    own
}

/// The totals of a node's own lists, made from what it sees of lower nodes.
fn row(node: Node, seen: impl Fn(usize) -> Row) -> Row {
    let or = |a: Row, b: Row| Row {
        p: a.p.joined(b.p),
        n: a.n.followed_by(b.n),
    };
    match node {
        Node::False => Row { p: EMPTY, n: NONE },
        Node::True => Row { p: NONE, n: EMPTY },
        Node::Symbol(_) => Row { p: UNIT, n: UNIT },
        Node::Not(a) => seen(a).turned(),
        Node::And(a, b) => or(seen(a).turned(), seen(b).turned()).turned(),
        Node::Or(a, b) => or(seen(a), seen(b)),
        Node::Implies(a, b) => or(seen(a).turned(), seen(b)),
        Node::Equivalent(a, b) => {
            let (a, b) = (seen(a), seen(b));
            Row {
                p: a.n.joined(b.p).followed_by(b.n.joined(a.p)),
                n: a.n.joined(b.n).followed_by(a.p.joined(b.p)),
            }
        }
    }
}

/// The totals of each node's own lists.
fn rows(nodes: &[Node], renamed: &[bool]) -> Vec<Row> {
    let mut own: Vec<Row> = Vec::with_capacity(nodes.len());
    for &node in nodes {
        let row = row(node, |child| seen(own[child], renamed[child]));
        own.push(row);
    }
    own
}

/// The total of the whole output.
fn whole(own: &[Row], renamed: &[bool], marks: &[Mark]) -> Total {
    let root = own.len() - 1;
    let mut total = own[root].p;
    for node in (0..root).filter(|&node| renamed[node]) {
        if marks[node].positive {
            total = total.followed_by(UNIT.joined(own[node].p));
        }
        if marks[node].negative {
            total = total.followed_by(own[node].n.joined(UNIT));
        }
    }
    total
}

/// The clause and the literal total of the output, as a measure shows them.
pub fn measure(nodes: &[Node], renamed: &[bool]) -> [u32; 2] {
    let total = whole(&rows(nodes, renamed), renamed, &marks(nodes));
    if total.clauses == CLAUSE_CEILING {
        return [CLAUSE_CEILING, LITERAL_CEILING];
    }
    [total.clauses, total.literals]
}

/// Writes clauses into a lent buffer.
struct Writer<'a> {
    nodes: &'a [Node],
    /// The helper of each renamed node, else 0.
    helpers: &'a [i32],
    own: &'a [Row],
    out: &'a mut [u8],
    at: usize,
}

impl Writer<'_> {
    fn seen(&self, node: usize) -> Row {
        seen(self.own[node], self.helpers[node] != 0)
    }

    fn word(&mut self, number: i32) {
        self.out[self.at..self.at + 4].copy_from_slice(&number.to_le_bytes());
        self.at += 4;
    }

    /// Writes the literals of clause `k` of a node as its parents see it.
    fn child(&mut self, node: usize, positive: bool, k: u32) {
        let helper = self.helpers[node];
        if helper != 0 {
            return self.word(if positive { helper } else { -helper });
        }
        self.body(node, positive, k);
    }

    /// Writes the literals of clause `k` of a node's own list.
    fn body(&mut self, node: usize, positive: bool, k: u32) {
        if self.own[node].side(positive).literals == 0 {
            return;
        }
        match self.nodes[node] {
            Node::False | Node::True => {}
            Node::Symbol(s) => self.word(if positive {
                i32::from(s)
            } else {
                -i32::from(s)
            }),
            Node::Not(a) => self.child(a, !positive, k),
            Node::And(a, b) if positive => self.followed((a, true), (b, true), k),
            Node::And(a, b) => self.joined((a, false), (b, false), k),
            Node::Or(a, b) if positive => self.joined((a, true), (b, true), k),
            Node::Or(a, b) => self.followed((a, false), (b, false), k),
            Node::Implies(a, b) if positive => self.joined((a, false), (b, true), k),
            Node::Implies(a, b) => self.followed((a, true), (b, false), k),
            Node::Equivalent(a, b) => {
                let (left, right) = (self.seen(a), self.seen(b));
                let first = left.n.joined(right.side(positive)).clauses;
                if k < first {
                    self.joined((a, false), (b, positive), k);
                } else if positive {
                    self.joined((b, false), (a, true), k - first);
                } else {
                    self.joined((a, true), (b, true), k - first);
                }
            }
        }
    }

    fn followed(&mut self, left: (usize, bool), right: (usize, bool), k: u32) {
        let first = self.seen(left.0).side(left.1).clauses;
        if k < first {
            self.child(left.0, left.1, k);
        } else {
            self.child(right.0, right.1, k - first);
        }
    }

    fn joined(&mut self, left: (usize, bool), right: (usize, bool), k: u32) {
        let turns = self.seen(right.0).side(right.1).clauses;
        self.child(left.0, left.1, k / turns);
        self.child(right.0, right.1, k % turns);
    }
}

/// Writes the clause bytes to the front of a lent buffer, and gives variables and clauses. Else refusal 5, 6 or 7.
/// `taken` is the highest variable in use before.
pub fn convert(
    nodes: &[Node],
    taken: u32,
    renamed: &[bool],
    out: &mut [u8],
) -> Result<[u32; 2], Refusal> {
    let (own, marks) = (rows(nodes, renamed), marks(nodes));
    let total = whole(&own, renamed, &marks);
    if total.clauses == CLAUSE_CEILING {
        return Err(Refusal::new(5));
    }
    if total.literals == LITERAL_CEILING {
        return Err(Refusal::new(6));
    }
    if out.len() < 4 * (total.clauses + total.literals) as usize {
        return Err(Refusal::new(7));
    }

    let mut variables = taken;
    let mut helpers = vec![0; nodes.len()];
    for node in (0..nodes.len()).filter(|&node| renamed[node]) {
        variables += 1;
        helpers[node] = variables as i32;
    }
    let root = nodes.len() - 1;
    let mut writer = Writer {
        nodes,
        helpers: &helpers,
        own: &own,
        out,
        at: 0,
    };
    for k in 0..own[root].p.clauses {
        writer.body(root, true, k);
        writer.word(0);
    }
    for node in (0..root).filter(|&node| renamed[node]) {
        if marks[node].positive {
            for k in 0..own[node].p.clauses {
                writer.word(-helpers[node]);
                writer.body(node, true, k);
                writer.word(0);
            }
        }
        if marks[node].negative {
            for k in 0..own[node].n.clauses {
                writer.body(node, false, k);
                writer.word(helpers[node]);
                writer.word(0);
            }
        }
    }
    Ok([variables, total.clauses])
}
