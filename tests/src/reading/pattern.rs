//! The pattern and its conditions.

use super::store::{u16_at, u32_at};

pub const MAX_PATTERN_NODES: usize = 8;
const MAX_PATTERN_EDGES: usize = 56;
const HEADER_BYTES: usize = 24;

/// A pattern node: its label, its two operator codes and their constants.
#[derive(Debug, Clone, Copy, Default)]
pub struct PatternNode {
    pub label: u16,
    operators: [u8; 2],
    constants: [i32; 2],
}

/// A pattern that keeps its rules.
pub struct Pattern {
    pub nodes: Vec<PatternNode>,
    pub edges: Vec<(u8, u8)>,
    /// Bit w of place u says that u and w are joined by an edge either way.
    pub neighbours: [u8; MAX_PATTERN_NODES],
}

impl Pattern {
    /// The pattern, or None where it breaks its rules.
    pub fn open(bytes: &[u8]) -> Option<Pattern> {
        if bytes.len() < HEADER_BYTES {
            return None;
        }
        let words: [u32; 6] = std::array::from_fn(|word| u32_at(bytes, 4 * word));
        let (p, q) = (words[1] as usize, words[2] as usize);
        if !(1..=MAX_PATTERN_NODES).contains(&p) || q > MAX_PATTERN_EDGES {
            return None;
        }
        let edges_at = HEADER_BYTES + 16 * p;
        let total = edges_at + 2 * q;
        let forced = [1, p, q, HEADER_BYTES, edges_at, total].map(|word| word as u32);
        if words != forced || bytes.len() != total {
            return None;
        }
        let (node_records, _) = bytes[HEADER_BYTES..edges_at].as_chunks::<16>();
        let nodes = node_records.iter().map(PatternNode::read).collect::<Option<Vec<_>>>()?;
        let (edge_records, _) = bytes[edges_at..].as_chunks::<2>();
        let edges: Vec<(u8, u8)> = edge_records.iter().map(|edge| (edge[0], edge[1])).collect();
        edges_keep(&edges, p).then(|| Pattern { nodes, neighbours: neighbours(&edges), edges })
    }
}

fn edges_keep(edges: &[(u8, u8)], p: usize) -> bool {
    let ends_keep = |&(from, to): &(u8, u8)| (from as usize) < p && (to as usize) < p && from != to;
    edges.iter().all(ends_keep) && edges.windows(2).all(|two| two[0] < two[1])
}

fn neighbours(edges: &[(u8, u8)]) -> [u8; MAX_PATTERN_NODES] {
    let mut table = [0; MAX_PATTERN_NODES];
    for &(from, to) in edges {
        table[from as usize] |= 1 << to;
        table[to as usize] |= 1 << from;
    }
    table
}

impl PatternNode {
    fn read(record: &[u8; 16]) -> Option<PatternNode> {
        let node = PatternNode {
            label: u16_at(record, 0),
            operators: [record[2], record[3]],
            constants: [u32_at(record, 4) as i32, u32_at(record, 8) as i32],
        };
        let [first, second] = node.operators;
        let keeps = node.label != 0
            && first <= 5
            && second <= 5
            && (first != 0 || node.constants[0] == 0)
            && (second != 0 || node.constants[1] == 0)
            && (first != 0 || second == 0)
            && u32_at(record, 12) == 0;
        keeps.then_some(node)
    }

    /// Whether a value meets both conditions.
    pub fn meets(&self, value: i32) -> bool {
        meets(value, self.operators[0], self.constants[0])
            && meets(value, self.operators[1], self.constants[1])
    }
}

fn meets(value: i32, operator: u8, constant: i32) -> bool {
    match operator {
        0 => true,
        1 => value == constant,
        2 => value < constant,
        3 => value > constant,
        4 => value <= constant,
        5 => value >= constant,
        _ => false,
    }
}
