//! What planning tells.

use crate::boundary::{NO_CHOSEN, PLAN_ROW};

/// A row of a plan; nodes are pattern nodes.
#[derive(Debug, Clone, PartialEq, Eq)]
pub struct Row {
    /// Whether it is for an edge of the pattern; else it is for a node.
    pub is_edge: bool,
    /// The number of that node or edge in the pattern.
    pub number: u32,
    /// The end of the edge that is fetched; for a node, itself.
    pub fetched: u32,
    /// The number of the constraint that fetches it.
    pub constraint: u32,
    /// The nodes that it is fetched from, one for each label of the constraint's key.
    pub chosen: Vec<u32>,
    /// How many entries are read for it at most: N times the figures of the chosen nodes.
    pub figure: u32,
}

impl Row {
    fn of_words([kind, number, fetched, constraint, a, b, c, figure]: [u32; PLAN_ROW]) -> Row {
        let chosen = [a, b, c].into_iter().filter(|&node| node != NO_CHOSEN).collect();
        Row { is_edge: kind == 1, number, fetched, constraint, chosen, figure }
    }
}

/// What listing will read: at most `bound` entries, row by row.
#[derive(Debug, Clone, PartialEq, Eq)]
pub struct Plan {
    /// The bound T: the sum of the figures.
    pub bound: u32,
    /// The rows: nodes in the order they are fetched in, then edges in the order of the pattern.
    pub rows: Vec<Row>,
}

impl Plan {
    pub(crate) fn of_words(bound: u32, words: &[u32], rows: usize) -> Plan {
        let rows = words.chunks_exact(PLAN_ROW).take(rows);
        Plan {
            bound,
            rows: rows.filter_map(|row| row.try_into().ok()).map(Row::of_words).collect(),
        }
    }
}
