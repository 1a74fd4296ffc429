//! The table "clauses of a node", written once, and a walk through the clauses of a list.

use crate::table::Node;
use crate::totals::Size;

/// The clause list of a node (`positive`) or of its negation.
#[derive(Clone, Copy, Debug, PartialEq, Eq)]
pub struct Side {
    pub node: usize,
    pub positive: bool,
}

/// How the list of a side is made.
#[derive(Clone, Debug, PartialEq, Eq)]
pub enum List {
    /// One clause of one literal.
    Unit(i32),
    /// Lists one after the other, each the join of its factors. The join of none is one empty clause.
    Joins(Vec<Vec<Side>>),
}

fn p(node: usize) -> Side {
    Side {
        node,
        positive: true,
    }
}

fn n(node: usize) -> Side {
    Side {
        node,
        positive: false,
    }
}

/// P of a node, then N.
fn of_node(node: Node) -> [List; 2] {
    let joins = |positive: Vec<Vec<Side>>, negative: Vec<Vec<Side>>| {
        [List::Joins(positive), List::Joins(negative)]
    };
    match node {
        Node::False => joins(vec![vec![]], vec![]),
        Node::True => joins(vec![], vec![vec![]]),
        Node::Symbol(s) => [List::Unit(i32::from(s)), List::Unit(-i32::from(s))],
        Node::Not(a) => joins(vec![vec![n(a)]], vec![vec![p(a)]]),
        Node::And(a, b) => joins(vec![vec![p(a)], vec![p(b)]], vec![vec![n(a), n(b)]]),
        Node::Or(a, b) => joins(vec![vec![p(a), p(b)]], vec![vec![n(a)], vec![n(b)]]),
        Node::Implies(a, b) => joins(vec![vec![n(a), p(b)]], vec![vec![p(a)], vec![n(b)]]),
        Node::Equivalent(a, b) => joins(
            vec![vec![n(a), p(b)], vec![n(b), p(a)]],
            vec![vec![n(a), n(b)], vec![p(a), p(b)]],
        ),
    }
}

/// The lists of a table's nodes, and their sizes under a set.
pub struct Lists {
    lists: Vec<[List; 2]>,
}

impl Lists {
    pub fn new(nodes: &[Node]) -> Lists {
        Lists {
            lists: nodes.iter().map(|&node| of_node(node)).collect(),
        }
    }

    /// The list of a side's own node, not of the helper that may stand for it.
    pub fn body(&self, side: Side) -> &List {
        &self.lists[side.node][usize::from(!side.positive)]
    }

    pub fn count(&self) -> usize {
        self.lists.len()
    }
}

/// What is still to go into the clause being made.
#[derive(Clone, Copy, Debug, PartialEq, Eq)]
pub enum Goal {
    Literal(i32),
    /// A clause of the node's own list.
    Body(Side),
    /// A clause of the node as its parents see it: of its helper where it is renamed.
    Child(Side),
}

/// A list at which a later clause is still to be taken.
struct Choice {
    /// The literals that the clause had.
    literals: usize,
    /// The cells that the agenda had, and the goals after the list.
    cells: usize,
    rest: Option<usize>,
    later: Later,
}

enum Later {
    /// The list has so many more empty clauses.
    Empty(u64),
    /// The list goes on with this join.
    Join(Side, usize),
}

/// Takes the clauses of a join of goals in turn. The last list at which a choice was made goes on first,
/// so each left clause meets all right clauses.
///
/// Two rules keep the walk short. A list of no clause is never entered. A list of no literal is a
/// number of empty clauses, and is not entered either: there is nothing to write.
pub struct Walk<'a> {
    lists: &'a Lists,
    /// The helper of each renamed node, else 0.
    helpers: &'a [i32],
    /// The sizes of each node's own P and N.
    sizes: &'a [[Size; 2]],
    clause: Vec<i32>,
    /// A goal, and the cell of the goal after it.
    agenda: Vec<(Goal, Option<usize>)>,
    choices: Vec<Choice>,
}

impl<'a> Walk<'a> {
    pub fn new(lists: &'a Lists, helpers: &'a [i32], sizes: &'a [[Size; 2]]) -> Walk<'a> {
        Walk {
            lists,
            helpers,
            sizes,
            clause: vec![],
            agenda: vec![],
            choices: vec![],
        }
    }

    /// Hands over each clause of the join of the goals, in order. None of the goals may be a list of no clause.
    pub fn each(&mut self, goals: &[Goal], mut take: impl FnMut(&[i32])) {
        self.clause.clear();
        self.agenda.clear();
        self.choices.clear();
        let mut next = self.push_all(goals, None);
        loop {
            while let Some(cell) = next {
                next = self.expand(cell);
            }
            take(&self.clause);
            match self.choices.pop() {
                None => return,
                Some(choice) => next = self.go_on(choice),
            }
        }
    }

    fn push_all(&mut self, goals: &[Goal], rest: Option<usize>) -> Option<usize> {
        goals.iter().rev().fold(rest, |next, &goal| {
            self.agenda.push((goal, next));
            Some(self.agenda.len() - 1)
        })
    }

    /// Takes the goal at a cell off the agenda, and what it asks for onto it. Gives the next cell.
    fn expand(&mut self, cell: usize) -> Option<usize> {
        let (goal, rest) = self.agenda[cell];
        // A cell that no choice comes back to is free again.
        let kept = self.choices.last().map_or(0, |choice| choice.cells);
        if cell >= kept && cell + 1 == self.agenda.len() {
            self.agenda.pop();
        }
        match goal {
            Goal::Literal(literal) => {
                self.clause.push(literal);
                rest
            }
            Goal::Child(side) if self.helpers[side.node] != 0 => {
                let helper = self.helpers[side.node];
                self.clause
                    .push(if side.positive { helper } else { -helper });
                rest
            }
            Goal::Child(side) | Goal::Body(side) => self.enter(side, rest),
        }
    }

    fn enter(&mut self, side: Side, rest: Option<usize>) -> Option<usize> {
        if let List::Unit(literal) = self.lists.body(side) {
            self.clause.push(*literal);
            return rest;
        }
        let size = self.sizes[side.node][usize::from(!side.positive)];
        if size.literals == 0 {
            return self.take_empty(size.clauses, rest);
        }
        self.take_join(side, 0, rest)
    }

    fn choose(&mut self, rest: Option<usize>, later: Later) {
        self.choices.push(Choice {
            literals: self.clause.len(),
            cells: self.agenda.len(),
            rest,
            later,
        });
    }

    /// Takes an empty clause from a list of so many.
    fn take_empty(&mut self, count: u64, rest: Option<usize>) -> Option<usize> {
        if count > 1 {
            self.choose(rest, Later::Empty(count - 1));
        }
        rest
    }

    /// Takes the first join from number `from` on that has a clause.
    fn take_join(&mut self, side: Side, from: usize, rest: Option<usize>) -> Option<usize> {
        let lists = self.lists;
        let joins = match lists.body(side) {
            List::Joins(joins) => joins,
            List::Unit(_) => unreachable!("a unit is taken as it stands"),
        };
        let mut numbers = (from..joins.len()).filter(|&number| self.has_clause(&joins[number]));
        let number = numbers.next().expect("the list has a clause");
        if let Some(later) = numbers.next() {
            self.choose(rest, Later::Join(side, later));
        }
        let goals: Vec<Goal> = joins[number]
            .iter()
            .map(|&side| Goal::Child(side))
            .collect();
        self.push_all(&goals, rest)
    }

    fn has_clause(&self, join: &[Side]) -> bool {
        join.iter().all(|side| {
            self.helpers[side.node] != 0
                || self.sizes[side.node][usize::from(!side.positive)].clauses != 0
        })
    }

    fn go_on(&mut self, choice: Choice) -> Option<usize> {
        self.clause.truncate(choice.literals);
        self.agenda.truncate(choice.cells);
        match choice.later {
            Later::Empty(count) => self.take_empty(count, choice.rest),
            Later::Join(side, number) => self.take_join(side, number, choice.rest),
        }
    }
}
