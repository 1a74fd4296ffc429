//! Choosing a set quickly. It shares neither the totals nor the table of clause lists with the plain rule.
//!
//! Nodes are tried from the highest down. A child's number is below its parent's, so renaming a node
//! changes no total of the nodes up to it, and of the nodes below it none is renamed yet. In the second
//! pass all of them still are, if they may be. So a trial fills only the totals above the node, and adds
//! their definitions to what the nodes up to it have. Leaves and nodes that the root doesn't reach are
//! filled once.

use crate::choose::Choice;
use crate::polarity::{marks, Mark};
use crate::table::Node;

const CEILING: u32 = 65_535;
const MOST_NODES: usize = 1_024;

/// The clause totals of P and N, at the ceiling.
#[derive(Clone, Copy)]
struct Row {
    p: u32,
    n: u32,
}

/// How a node shows to its parents where it is renamed.
const HELPER: Row = Row { p: 1, n: 1 };

/// What parents see of each node.
type Seen = [Row; MOST_NODES];

fn add(left: u32, right: u32) -> u32 {
    (left + right).min(CEILING)
}

/// The product of two totals at the ceiling is below 2 to the 32.
fn join(left: u32, right: u32) -> u32 {
    (left * right).min(CEILING)
}

/// The clauses of a node that has children.
#[derive(Clone, Copy)]
enum Kind {
    Not,
    And,
    Or,
    Implies,
    Equivalent,
}

/// A node that has children and that the root reaches.
#[derive(Clone, Copy)]
struct Inner {
    kind: Kind,
    is_renamed: bool,
    /// 1 for each half that its definition has.
    halves: (u8, u8),
    number: u16,
    a: u16,
    b: u16,
}

impl Inner {
    /// None for a leaf and for a node that the root doesn't reach.
    fn new(number: usize, node: Node, mark: Mark) -> Option<Inner> {
        let (kind, a, b) = match node {
            Node::False | Node::True | Node::Symbol(_) => return None,
            Node::Not(a) => (Kind::Not, a, a),
            Node::And(a, b) => (Kind::And, a, b),
            Node::Or(a, b) => (Kind::Or, a, b),
            Node::Implies(a, b) => (Kind::Implies, a, b),
            Node::Equivalent(a, b) => (Kind::Equivalent, a, b),
        };
        let inner = Inner {
            kind,
            is_renamed: false,
            halves: (u8::from(mark.positive), u8::from(mark.negative)),
            number: number as u16,
            a: a as u16,
            b: b as u16,
        };
        Some(inner).filter(|_| mark.is_reached())
    }

    fn row(&self, seen: &Seen) -> Row {
        let (a, b) = (seen[usize::from(self.a)], seen[usize::from(self.b)]);
        let (p, n) = match self.kind {
            Kind::Not => (a.n, a.p),
            Kind::And => (add(a.p, b.p), join(a.n, b.n)),
            Kind::Or => (join(a.p, b.p), add(a.n, b.n)),
            Kind::Implies => (join(a.n, b.p), add(a.p, b.n)),
            Kind::Equivalent => (
                add(join(a.n, b.p), join(b.n, a.p)),
                add(join(a.n, b.n), join(a.p, b.p)),
            ),
        };
        Row { p, n }
    }

    /// The clauses that define the node where its totals are these.
    fn definition(&self, row: Row) -> u32 {
        u32::from(self.halves.0) * row.p + u32::from(self.halves.1) * row.n
    }
}

/// The row of a leaf.
fn leaf(node: Node) -> Row {
    match node {
        Node::False => Row { p: 1, n: 0 },
        Node::True => Row { p: 0, n: 1 },
        _ => HELPER,
    }
}

/// Fills what parents see of these nodes. Gives the clauses that define the renamed ones, at the ceiling.
fn fill(inner: &[Inner], seen: &mut Seen) -> u32 {
    let mut definitions = 0;
    for node in inner {
        let row = node.row(seen);
        let at = usize::from(node.number);
        if node.is_renamed {
            definitions = add(definitions, node.definition(row));
            seen[at] = HELPER;
        } else {
            seen[at] = row;
        }
    }
    definitions
}

/// A table on which both passes go.
struct Passes {
    inner: Vec<Inner>,
    seen: Seen,
    root: usize,
}

impl Passes {
    fn new(nodes: &[Node]) -> Passes {
        let mut seen: Seen = [HELPER; MOST_NODES];
        let mut inner = vec![];
        for ((number, &node), mark) in nodes.iter().enumerate().zip(marks(nodes)) {
            seen[number] = leaf(node);
            inner.extend(Inner::new(number, node, mark));
        }
        Passes {
            inner,
            seen,
            root: nodes.len() - 1,
        }
    }

    /// How many nodes may be renamed. The last one that has children is the root, where any is.
    fn may(&self) -> usize {
        self.inner.len().saturating_sub(1)
    }

    /// The total where the nodes up to `tried` have so many clauses in their definitions.
    fn total(&mut self, tried: usize, definitions: u32) -> u32 {
        let above = fill(&self.inner[tried + 1..], &mut self.seen);
        add(add(above, definitions), self.seen[self.root].p)
    }

    /// No node is renamed at first, and one is put in where the total is lower with it.
    fn put_in(&mut self, allowance: u32) -> Choice {
        fill(&self.inner, &mut self.seen);
        let mut choice = Choice {
            set: vec![false; self.root + 1],
            picks: 0,
            total: self.seen[self.root].p,
        };
        for tried in (0..self.may()).rev() {
            if choice.picks == allowance {
                break;
            }
            let number = usize::from(self.inner[tried].number);
            let own = self.seen[number];
            self.seen[number] = HELPER;
            let total = self.total(tried, self.inner[tried].definition(own));
            if total < choice.total {
                self.inner[tried].is_renamed = true;
                choice.set[number] = true;
                choice.total = total;
                choice.picks += 1;
            } else {
                // The totals above are filled again before they are next read.
                self.seen[number] = own;
            }
        }
        choice
    }

    /// All nodes that may be are renamed at first, and one is taken out where the total is not higher without it. Below
    /// a tried node all are still renamed, so its own totals and the definitions below it are those of the start.
    fn take_out(&mut self) -> Choice {
        let may = self.may();
        let mut set = vec![false; self.root + 1];
        for node in &mut self.inner[..may] {
            node.is_renamed = true;
            set[usize::from(node.number)] = true;
            self.seen[usize::from(node.number)] = HELPER;
        }
        let own: Vec<Row> = self.inner.iter().map(|node| node.row(&self.seen)).collect();
        let mut below = vec![0];
        for (node, &row) in self.inner[..may].iter().zip(&own) {
            below.push(below[below.len() - 1] + node.definition(row));
        }
        let mut choice = Choice {
            set,
            picks: may as u32,
            total: below[may] + own[may].p,
        };
        for tried in (0..may).rev() {
            let number = usize::from(self.inner[tried].number);
            self.seen[number] = own[tried];
            let total = self.total(tried, below[tried]);
            if total <= choice.total {
                self.inner[tried].is_renamed = false;
                choice.set[number] = false;
                choice.total = total;
                choice.picks -= 1;
            } else {
                self.seen[number] = HELPER;
            }
        }
        choice
    }
}

/// The set for an allowance. The second pass is made where the first ends at the ceiling and all nodes are allowed.
pub fn fast_choose(nodes: &[Node], allowance: u32) -> Choice {
    let mut passes = Passes::new(nodes);
    let choice = passes.put_in(allowance);
    if choice.total == CEILING && allowance as usize >= passes.may() {
        return passes.take_out();
    }
    choice
}
