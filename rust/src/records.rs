//! Drafts and patterns as records, and their bytes.

use crate::bytes::{PatternBytes, StoreBytes};
use crate::error::{Error, Wrong};
use crate::store::Store;

/// S → (l, N): for one node of each key label, at most so many nodes with the label neighbour them all.
#[derive(Debug, Clone, PartialEq, Eq)]
pub struct Constraint {
    /// S: the labels of a key, up to three, ascending.
    pub key_labels: Vec<u16>,
    /// l: the label of the nodes in a list.
    pub label: u16,
    /// N: the most nodes that a list has.
    pub most: u32,
}

impl Constraint {
    /// A constraint from the labels of its key, the label of its lists, and N.
    pub fn new(key_labels: &[u16], label: u16, most: u32) -> Constraint {
        Constraint { key_labels: key_labels.to_vec(), label, most }
    }

    /// The labels of the key with zeros after them, if there are no more than three.
    fn key(&self) -> Option<[u16; 3]> {
        let mut key = [0; 3];
        key.get_mut(..self.key_labels.len())?.copy_from_slice(&self.key_labels);
        Some(key)
    }
}

/// A graph and its constraints, without an index.
#[derive(Debug, Clone, Default, PartialEq, Eq)]
pub struct Draft {
    /// Label and value of each node; its id is its place.
    pub nodes: Vec<(u16, i32)>,
    /// From one node to another, by id, in any order.
    pub edges: Vec<(u32, u32)>,
    /// The constraints; their order decides ties in plans.
    pub constraints: Vec<Constraint>,
}

impl Draft {
    /// The bytes of the draft; the library says whether they are right.
    ///
    /// # Errors
    /// Where a constraint has more than three key labels, or 32 bits cannot count the bytes.
    pub fn bytes(&self) -> Result<StoreBytes<'static>, Error> {
        let mut edges = self.edges.clone();
        edges.sort_unstable();
        let counts = [self.nodes.len(), edges.len(), self.constraints.len()];
        let mut bytes = words(&store_header(counts)?);
        for (label, value) in &self.nodes {
            bytes.extend(label.to_le_bytes());
            bytes.extend([0, 0]);
            bytes.extend(value.to_le_bytes());
        }
        edges.iter().for_each(|&(from, to)| bytes.extend(words(&[from, to])));
        for (place, one) in self.constraints.iter().enumerate() {
            let key = one.key().ok_or(Wrong::KeyLabels(place))?;
            key.iter().chain([&one.label]).for_each(|label| bytes.extend(label.to_le_bytes()));
            bytes.extend(one.most.to_le_bytes());
        }
        Ok(bytes.into())
    }

    /// The store of the draft.
    ///
    /// # Errors
    /// As [`Draft::bytes`] and [`StoreBytes::build`].
    pub fn build(&self) -> Result<Store<'static>, Error> {
        self.bytes()?.build()
    }
}

/// The header that these counts of nodes, edges and constraints force.
fn store_header([n, m, k]: [usize; 3]) -> Result<[u32; 12], Wrong> {
    let edges = after(48, 8, n)?;
    let constraints = after(edges, 8, m)?;
    let end = after(constraints, 12, k)?;
    let [n, m, k] = [counted(n)?, counted(m)?, counted(k)?];
    Ok([1, n, m, k, 0, 0, 48, edges, constraints, end, end, end])
}

fn counted(count: usize) -> Result<u32, Wrong> {
    u32::try_from(count).map_err(|_| Wrong::Records)
}

/// The offset after a section that starts here and has so many records of this size.
fn after(start: u32, size: u32, count: usize) -> Result<u32, Wrong> {
    let length = size.checked_mul(counted(count)?);
    length.and_then(|length| start.checked_add(length)).ok_or(Wrong::Records)
}

fn words(words: &[u32]) -> Vec<u8> {
    words.iter().flat_map(|word| word.to_le_bytes()).collect()
}

/// How a value is compared with a constant.
#[derive(Debug, Clone, Copy, PartialEq, Eq)]
#[repr(u8)]
pub enum Operator {
    /// The value is the constant.
    Equal = 1,
    /// The value is below the constant.
    Less = 2,
    /// The value is above the constant.
    Greater = 3,
    /// The value is the constant or below it.
    AtMost = 4,
    /// The value is the constant or above it.
    AtLeast = 5,
}

/// What a graph node must be.
#[derive(Debug, Clone, Default, PartialEq, Eq)]
pub struct PatternNode {
    /// Its label.
    pub label: u16,
    /// Up to two conditions on its value; it must meet both.
    pub conditions: Vec<(Operator, i32)>,
}

impl PatternNode {
    /// The 16 bytes of the node, if it has no more than two conditions.
    fn bytes(&self) -> Option<Vec<u8>> {
        let (mut codes, mut constants) = ([0; 2], [0i32; 2]);
        let used = codes.get_mut(..self.conditions.len())?.iter_mut().zip(&mut constants);
        for ((code, constant), condition) in used.zip(&self.conditions) {
            (*code, *constant) = (condition.0 as u8, condition.1);
        }
        let mut bytes = self.label.to_le_bytes().to_vec();
        bytes.extend(codes);
        bytes.extend(constants.into_iter().flat_map(i32::to_le_bytes));
        bytes.extend([0; 4]);
        Some(bytes)
    }
}

/// Nodes and edges that are looked for.
#[derive(Debug, Clone, Default, PartialEq, Eq)]
pub struct Pattern {
    /// The nodes; their order is that of a match.
    pub nodes: Vec<PatternNode>,
    /// From one of them to another, by place, in any order.
    pub edges: Vec<(u8, u8)>,
}

impl Pattern {
    /// A pattern of nodes without conditions.
    pub fn plain(labels: &[u16], edges: &[(u8, u8)]) -> Pattern {
        let node = |&label: &u16| PatternNode { label, conditions: Vec::new() };
        Pattern { nodes: labels.iter().map(node).collect(), edges: edges.to_vec() }
    }

    /// The same with one more condition on a node.
    ///
    /// # Errors
    /// Where there is no such node.
    pub fn with(
        mut self,
        node: usize,
        operator: Operator,
        constant: i32,
    ) -> Result<Pattern, Error> {
        let wanted = self.nodes.get_mut(node).ok_or(Wrong::NoNode(node))?;
        wanted.conditions.push((operator, constant));
        Ok(self)
    }

    /// The bytes of the pattern; the library says whether they are right.
    ///
    /// # Errors
    /// Where a node has more than two conditions, or 32 bits cannot count the bytes.
    pub fn bytes(&self) -> Result<PatternBytes<'static>, Error> {
        let mut edges = self.edges.clone();
        edges.sort_unstable();
        let edges_at = after(24, 16, self.nodes.len())?;
        let end = after(edges_at, 2, edges.len())?;
        let [p, q] = [counted(self.nodes.len())?, counted(edges.len())?];
        let mut bytes = words(&[1, p, q, 24, edges_at, end]);
        for (place, node) in self.nodes.iter().enumerate() {
            bytes.extend(node.bytes().ok_or(Wrong::Conditions(place))?);
        }
        edges.iter().for_each(|&(from, to)| bytes.extend([from, to]));
        Ok(bytes.into())
    }
}

#[cfg(test)]
mod tests {
    use super::*;

    #[test]
    fn what_32_bits_cannot_count_is_told() {
        let most = u32::MAX as usize;
        assert_eq!(after(48, 8, (most - 48) / 8), Ok(48 + (u32::MAX - 48) / 8 * 8));
        assert_eq!(after(48, 8, (most - 48) / 8 + 1), Err(Wrong::Records));
        assert_eq!(after(48, 8, most / 8 + 1), Err(Wrong::Records));
        assert_eq!(counted(most + 1), Err(Wrong::Records));
    }
}
