//! Drafts and patterns as records, and their bytes.

/// A node record.
#[derive(Debug, Clone, Copy, PartialEq, Eq)]
pub struct Node {
    pub label: u16,
    pub value: i32,
}

/// A constraint record S → (l, N), with zeros after S.
#[derive(Debug, Clone, Copy, PartialEq, Eq)]
pub struct ConstraintRule {
    pub labels: [u16; 3],
    pub label: u16,
    pub most: u32,
}

impl ConstraintRule {
    pub fn new(key_labels: &[u16], label: u16, most: u32) -> ConstraintRule {
        let mut labels = [0; 3];
        labels[..key_labels.len()].copy_from_slice(key_labels);
        ConstraintRule { labels, label, most }
    }

    pub fn key_labels(&self) -> Vec<u16> {
        self.labels.into_iter().filter(|&label| label != 0).collect()
    }
}

/// A graph and its constraints.
#[derive(Debug, Clone, Default, PartialEq, Eq)]
pub struct World {
    pub nodes: Vec<Node>,
    pub edges: Vec<(u32, u32)>,
    pub constraints: Vec<ConstraintRule>,
}

impl World {
    pub fn add_node(&mut self, label: u16, value: i32) -> u32 {
        self.nodes.push(Node { label, value });
        self.nodes.len() as u32 - 1
    }

    pub fn neighbours(&self, one: u32, other: u32) -> bool {
        self.edges.contains(&(one, other)) || self.edges.contains(&(other, one))
    }

    /// The draft of this world; edges are put in order, each once.
    pub fn draft(&self) -> Vec<u8> {
        let mut edges = self.edges.clone();
        edges.sort_unstable();
        edges.dedup();
        let counts = [self.nodes.len(), edges.len(), self.constraints.len()].map(|n| n as u32);
        let mut bytes = Vec::new();
        for word in store_header([counts[0], counts[1], counts[2], 0, 0]) {
            bytes.extend(word.to_le_bytes());
        }
        for node in &self.nodes {
            bytes.extend(node.label.to_le_bytes());
            bytes.extend([0, 0]);
            bytes.extend(node.value.to_le_bytes());
        }
        for (from, to) in edges {
            bytes.extend(from.to_le_bytes());
            bytes.extend(to.to_le_bytes());
        }
        for one in &self.constraints {
            one.labels.iter().for_each(|label| bytes.extend(label.to_le_bytes()));
            bytes.extend(one.label.to_le_bytes());
            bytes.extend(one.most.to_le_bytes());
        }
        bytes
    }
}

/// The 12 header words that these counts force; sums wrap where a count is far too large.
pub fn store_header(counts: [u32; 5]) -> [u32; 12] {
    let [n, m, k, g, e] = counts;
    let mut ends = [48u32; 6];
    for (section, (count, size)) in counts.into_iter().zip([8, 8, 12, 24, 8]).enumerate() {
        ends[section + 1] = ends[section].wrapping_add(count.wrapping_mul(size));
    }
    [1, n, m, k, g, e, ends[0], ends[1], ends[2], ends[3], ends[4], ends[5]]
}

/// A pattern node record.
#[derive(Debug, Clone, Copy, PartialEq, Eq, Default)]
pub struct PatternNode {
    pub label: u16,
    pub operators: [u8; 2],
    pub constants: [i32; 2],
}

/// A pattern.
#[derive(Debug, Clone, Default, PartialEq, Eq)]
pub struct PatternDraft {
    pub nodes: Vec<PatternNode>,
    pub edges: Vec<(u8, u8)>,
}

impl PatternDraft {
    /// A pattern of nodes without conditions.
    pub fn plain(labels: &[u16], edges: &[(u8, u8)]) -> PatternDraft {
        let node = |&label: &u16| PatternNode { label, ..PatternNode::default() };
        PatternDraft { nodes: labels.iter().map(node).collect(), edges: edges.to_vec() }
    }

    /// The same with one condition on a node.
    pub fn with(mut self, node: usize, operator: u8, constant: i32) -> PatternDraft {
        let place = if self.nodes[node].operators[0] == 0 { 0 } else { 1 };
        self.nodes[node].operators[place] = operator;
        self.nodes[node].constants[place] = constant;
        self
    }

    /// The bytes; edges are put in order, each once.
    pub fn bytes(&self) -> Vec<u8> {
        let mut edges = self.edges.clone();
        edges.sort_unstable();
        edges.dedup();
        let (p, q) = (self.nodes.len() as u32, edges.len() as u32);
        let mut bytes = Vec::new();
        for word in [1, p, q, 24, 24 + 16 * p, 24 + 16 * p + 2 * q] {
            bytes.extend(word.to_le_bytes());
        }
        for node in &self.nodes {
            bytes.extend(node.label.to_le_bytes());
            bytes.extend(node.operators);
            node.constants.iter().for_each(|constant| bytes.extend(constant.to_le_bytes()));
            bytes.extend([0; 4]);
        }
        edges.iter().for_each(|&(from, to)| bytes.extend([from, to]));
        bytes
    }
}
