//! The store's header and records.

use super::number;

pub const MAX_NODES: u32 = 65_535;
pub const MAX_EDGES: u32 = 262_144;
pub const MAX_CONSTRAINTS: u32 = 32;
pub const MAX_GROUPS: u32 = 262_144;
pub const MAX_ENTRIES: u32 = 1_048_576;

pub const HEADER_BYTES: usize = 48;

pub type NodeRecord = [u8; 8];
pub type EdgeRecord = [u8; 8];
pub type ConstraintRecord = [u8; 12];
pub type GroupRecord = [u8; 24];
pub type EntryRecord = [u8; 8];

/// The five sections of a store whose header is right.
pub struct Store<'a> {
    pub nodes: &'a [NodeRecord],
    pub edges: &'a [EdgeRecord],
    pub constraint_records: &'a [ConstraintRecord],
    pub groups: &'a [GroupRecord],
    pub entries: &'a [EntryRecord],
}

/// A constraint S → (l, N); S is the first `size` labels.
#[derive(Debug, Clone, Copy)]
pub struct Constraint {
    pub labels: [u16; 3],
    pub size: usize,
    pub label: u16,
    pub most: u32,
}

pub fn u16_at(bytes: &[u8], at: usize) -> u16 {
    u16::from_le_bytes([bytes[at], bytes[at + 1]])
}

pub fn u32_at(bytes: &[u8], at: usize) -> u32 {
    u32::from_le_bytes([bytes[at], bytes[at + 1], bytes[at + 2], bytes[at + 3]])
}

pub fn label_of(node: &NodeRecord) -> u16 {
    u16_at(node, 0)
}

pub fn value_of(node: &NodeRecord) -> i32 {
    u32_at(node, 4) as i32
}

/// The 12 header words of a store with these counts (n, m, k, g, e).
pub fn header(counts: [u32; 5]) -> [u32; 12] {
    let mut words = [0; 12];
    words[0] = 1;
    words[1..6].copy_from_slice(&counts);
    let sizes = [8, 8, 12, 24, 8];
    let mut offset = HEADER_BYTES as u32;
    for section in 0..5 {
        words[6 + section] = offset;
        offset += counts[section] * sizes[section];
    }
    words[11] = offset;
    words
}

impl<'a> Store<'a> {
    /// The sections, or None where the header, a count limit, an offset or the length is wrong.
    pub fn open(bytes: &'a [u8]) -> Option<Store<'a>> {
        if bytes.len() < HEADER_BYTES {
            return None;
        }
        let words: [u32; 12] = std::array::from_fn(|word| u32_at(bytes, 4 * word));
        let counts = [words[1], words[2], words[3], words[4], words[5]];
        let limits = [MAX_NODES, MAX_EDGES, MAX_CONSTRAINTS, MAX_GROUPS, MAX_ENTRIES];
        let within = counts.iter().zip(limits).all(|(&count, limit)| count <= limit);
        // Only counts within their limits are multiplied, so no offset leaves 32 bits.
        if !within || words != header(counts) || bytes.len() != words[11] as usize {
            return None;
        }
        let section =
            |number: usize| &bytes[words[6 + number] as usize..words[7 + number] as usize];
        Some(Store {
            nodes: section(0).as_chunks().0,
            edges: section(1).as_chunks().0,
            constraint_records: section(2).as_chunks().0,
            groups: section(3).as_chunks().0,
            entries: section(4).as_chunks().0,
        })
    }

    /// Refusal 2: a node or edge record breaks its rule.
    pub fn check_records(&self) -> Result<(), u32> {
        let nodes_keep = self.nodes.iter().all(|node| (1..=0xFFFF).contains(&u32_at(node, 0)));
        if nodes_keep && self.edges_keep() {
            Ok(())
        } else {
            Err(number::RECORD)
        }
    }

    fn edges_keep(&self) -> bool {
        let n = self.nodes.len() as u32;
        let mut before = None;
        self.edges.iter().all(|edge| {
            let (from, to) = (u32_at(edge, 0), u32_at(edge, 4));
            let pair = Some((from, to));
            let keeps = from < n && to < n && from != to && before < pair;
            before = pair;
            keeps
        })
    }

    /// The constraints; refusal 3 where one breaks its rule.
    pub fn constraints(&self) -> Result<Vec<Constraint>, u32> {
        let mut names = Vec::with_capacity(self.constraint_records.len());
        let mut constraints = Vec::with_capacity(self.constraint_records.len());
        for record in self.constraint_records {
            // S and l together, the first 8 bytes, must be new; there are at most 32.
            let name = &record[..8];
            let constraint = Constraint::read(record).ok_or(number::CONSTRAINT)?;
            if names.contains(&name) {
                return Err(number::CONSTRAINT);
            }
            names.push(name);
            constraints.push(constraint);
        }
        Ok(constraints)
    }
}

impl Constraint {
    fn read(record: &ConstraintRecord) -> Option<Constraint> {
        let labels = [u16_at(record, 0), u16_at(record, 2), u16_at(record, 4)];
        let label = u16_at(record, 6);
        let most = u32_at(record, 8);
        let size = labels.iter().position(|&label| label == 0).unwrap_or(3);
        let ascending = labels[..size].windows(2).all(|two| two[0] < two[1]);
        let zeros_after = labels[size..].iter().all(|&label| label == 0);
        let keeps = ascending && zeros_after && label != 0 && (1..=65_535).contains(&most);
        keeps.then_some(Constraint { labels, size, label, most })
    }

    /// The labels of S.
    pub fn key_labels(&self) -> &[u16] {
        &self.labels[..self.size]
    }
}
