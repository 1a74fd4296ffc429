//! Right tables.

use crate::random::Random;

pub const MOST_NODES: usize = 1_024;

#[derive(Clone, Copy)]
pub struct Node {
    pub kind: u8,
    pub a: u16,
    pub b: u16,
}

/// What a field of a node holds.
#[derive(Clone, Copy, PartialEq)]
pub enum Field {
    Unused,
    Symbol,
    Child,
}

impl Node {
    pub fn fields(self) -> [Field; 2] {
        match self.kind {
            2 => [Field::Symbol, Field::Unused],
            3 => [Field::Child, Field::Unused],
            4..=7 => [Field::Child, Field::Child],
            _ => [Field::Unused, Field::Unused],
        }
    }

    pub fn children(self) -> Vec<usize> {
        let fields = self.fields().into_iter().zip([self.a, self.b]);
        fields
            .filter(|(field, _)| *field == Field::Child)
            .map(|(_, value)| usize::from(value))
            .collect()
    }
}

pub fn bytes(nodes: &[Node]) -> Vec<u8> {
    let record = |node: &Node| {
        let ([a, a_high], [b, b_high]) = (node.a.to_le_bytes(), node.b.to_le_bytes());
        [node.kind, a, a_high, b, b_high]
    };
    nodes.iter().flat_map(record).collect()
}

/// A node count. Most guards are small.
pub fn node_count(random: &mut Random) -> usize {
    match random.below(100) {
        0 => MOST_NODES,
        1..=4 => random.between(1, MOST_NODES),
        5..=14 => random.between(1, 4),
        _ => random.between(1, 60),
    }
}

/// How far below its parent a child is drawn.
#[derive(Clone, Copy)]
enum Shape {
    /// Any node below: much is shared, and much is not reached.
    Wide,
    /// One of the four nodes below: deep, and nearly all is reached.
    Deep,
    /// The node before, or any node below.
    Mixed,
}

fn child(random: &mut Random, shape: Shape, number: usize) -> u16 {
    let lowest = match shape {
        Shape::Wide => 0,
        Shape::Deep => number.saturating_sub(4),
        Shape::Mixed => random.pick(&[0, number - 1]),
    };
    random.between(lowest, number - 1) as u16
}

/// A right table.
pub fn right(random: &mut Random, options: u32, count: usize) -> Vec<Node> {
    let shape = random.pick(&[Shape::Wide, Shape::Deep, Shape::Mixed]);
    let leaves = random.pick(&[10, 35, 50]);
    (0..count)
        .map(|number| right_node(random, shape, leaves, options, number))
        .collect()
}

/// A right table in which every operator meets constants, alone and shared.
pub fn constants(random: &mut Random, options: u32, count: usize) -> Vec<Node> {
    let often = random.pick(&[30, 60, 100]);
    let mut nodes = right(random, options, count);
    for node in nodes.iter_mut().filter(|node| node.kind <= 2) {
        if random.percent(often) {
            *node = Node {
                kind: random.between(0, 1) as u8,
                a: 0,
                b: 0,
            };
        }
    }
    nodes
}

/// A right table whose root reaches all nodes: so many leaves, then operators over nodes that have no parent yet.
pub fn reached(random: &mut Random, options: u32, leaves: usize) -> Vec<Node> {
    let shared = random.pick(&[0, 10, 40]);
    let nots = random.pick(&[0, 20]);
    let mut nodes: Vec<Node> = (0..leaves)
        .map(|_| right_node(random, Shape::Wide, 100, options, 0))
        .collect();
    let mut open: Vec<usize> = (0..leaves).collect();
    while open.len() > 1 {
        let a = open.swap_remove(random.below(open.len()));
        let kind = match random.percent(nots) {
            true => 3,
            false => random.pick(&[4, 4, 5, 5, 6, 7]),
        };
        let b = match kind {
            3 => 0,
            _ if random.percent(shared) => random.below(nodes.len()),
            _ => open.swap_remove(random.below(open.len())),
        };
        open.push(nodes.len());
        let (a, b) = match kind {
            3 => (a, b),
            _ => random.pick(&[(a, b), (b, a)]),
        };
        nodes.push(Node {
            kind,
            a: a as u16,
            b: b as u16,
        });
    }
    nodes
}

/// A right node: a leaf in `leaves` of a hundred draws.
fn right_node(
    random: &mut Random,
    shape: Shape,
    leaves: usize,
    options: u32,
    number: usize,
) -> Node {
    if number > 0 && !random.percent(leaves) {
        let (kind, a) = (random.between(3, 7) as u8, child(random, shape, number));
        let b = match kind {
            3 => 0,
            _ if random.percent(10) => a,
            _ => child(random, shape, number),
        };
        return Node { kind, a, b };
    }
    if options == 0 || random.percent(15) {
        return Node {
            kind: random.between(0, 1) as u8,
            a: 0,
            b: 0,
        };
    }
    let last = options as usize;
    let symbol = random.between(1, last);
    Node {
        kind: 2,
        a: random.pick(&[symbol, symbol, 1, last]) as u16,
        b: 0,
    }
}

#[cfg(test)]
pub mod tests {
    use super::*;

    fn is_right(node: Node, number: usize, options: u32) -> bool {
        let field_is_right = |(field, value): (Field, u16)| match field {
            Field::Unused => value == 0,
            Field::Symbol => value != 0 && u32::from(value) <= options,
            Field::Child => usize::from(value) < number,
        };
        node.kind <= 7
            && node
                .fields()
                .into_iter()
                .zip([node.a, node.b])
                .all(field_is_right)
    }

    pub fn wrong_nodes(nodes: &[Node], options: u32) -> usize {
        (0..nodes.len())
            .filter(|&number| !is_right(nodes[number], number, options))
            .count()
    }

    #[test]
    fn right_tables_are_right() {
        let mut random = Random::new(1);
        for options in [0, 1, 7, 32_000] {
            for count in [1, 2, 3, 60, 1_024] {
                for make in [right, constants] {
                    let nodes = make(&mut random, options, count);
                    assert_eq!((nodes.len(), wrong_nodes(&nodes, options)), (count, 0));
                }
            }
        }
    }

    #[test]
    fn a_root_may_reach_all_nodes() {
        let mut random = Random::new(5);
        for leaves in 1..200 {
            let nodes = reached(&mut random, 9, leaves % 20 + 1);
            assert_eq!(wrong_nodes(&nodes, 9), 0);
            let parents = nodes.iter().flat_map(|node| node.children());
            let seen: std::collections::BTreeSet<usize> = parents.collect();
            assert_eq!(seen.len(), nodes.len() - 1);
        }
    }

    #[test]
    fn every_kind_and_every_size_class_is_drawn() {
        let mut random = Random::new(4);
        let nodes = right(&mut random, 5, 1_024);
        assert!((0..=7).all(|kind| nodes.iter().any(|node| node.kind == kind)));
        let counts: Vec<usize> = (0..2_000).map(|_| node_count(&mut random)).collect();
        assert!(counts.contains(&1) && counts.contains(&60) && counts.contains(&MOST_NODES));
        assert!(counts.iter().all(|count| (1..=MOST_NODES).contains(count)));
    }
}
