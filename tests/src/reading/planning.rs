//! The plan, worked out from the pattern and the constraints alone.

use super::number;
use super::pattern::{Pattern, MAX_PATTERN_NODES};
use super::store::Constraint;

pub const MAX_BOUND: u32 = 65_536;
pub const NONE: u8 = 255;
const ROW_WORDS: usize = 8;

/// Figures are kept up to here. Smaller ones are exact; one that reaches it can only stand in a
/// plan answered 7 or 8, and whether it is 7 does not hang on any figure.
const FIGURE_STOP: u32 = MAX_BOUND + 1;

/// A node row or an edge row.
#[derive(Debug, Clone, Copy)]
pub struct Row {
    pub number: u8,
    pub fetched: u8,
    pub constraint: u8,
    pub chosen: [u8; 3],
    pub figure: u32,
}

/// Node rows in plan order, edge rows in pattern order, and T.
pub struct Plan {
    pub node_rows: Vec<Row>,
    pub edge_rows: Vec<Row>,
    pub bound: u32,
}

/// What a constraint asks of pattern nodes, as sets of 8 bits.
#[derive(Clone, Copy)]
struct Way {
    constraint: u8,
    most: u32,
    size: usize,
    fetchable: u8,
    choosable: [u8; 3],
}

struct Planner<'a> {
    pattern: &'a Pattern,
    ways: Vec<Way>,
    covered: u8,
    figures: [u32; MAX_PATTERN_NODES],
}

impl Plan {
    /// The plan, or refusal 7 or 8.
    pub fn new(pattern: &Pattern, constraints: &[Constraint]) -> Result<Plan, u32> {
        let mut planner = Planner {
            pattern,
            ways: ways(pattern, constraints),
            covered: 0,
            figures: [0; MAX_PATTERN_NODES],
        };
        let node_rows = planner.cover_nodes().ok_or(number::UNCOVERED)?;
        let edge_rows = planner.cover_edges().ok_or(number::UNCOVERED)?;
        // At most 64 figures, none above the stop, so the sum fits.
        let bound = node_rows.iter().chain(&edge_rows).map(|row| row.figure).sum();
        if bound > MAX_BOUND {
            return Err(number::BOUND);
        }
        Ok(Plan { node_rows, edge_rows, bound })
    }

    /// The words that the rows take.
    pub fn words(&self) -> usize {
        ROW_WORDS * (self.node_rows.len() + self.edge_rows.len())
    }

    /// Writes the rows into a room of exactly their length.
    pub fn write(&self, room: &mut [u32]) {
        let nodes = self.node_rows.iter().map(|row| (0, row));
        let edges = self.edge_rows.iter().map(|row| (1, row));
        for (words, (kind, row)) in room.chunks_exact_mut(ROW_WORDS).zip(nodes.chain(edges)) {
            let [first, second, third] = row.chosen.map(u32::from);
            words.copy_from_slice(&[
                kind,
                row.number as u32,
                row.fetched as u32,
                row.constraint as u32,
                first,
                second,
                third,
                row.figure,
            ]);
        }
    }
}

/// The constraints that can fetch some pattern node, in their order.
fn ways(pattern: &Pattern, constraints: &[Constraint]) -> Vec<Way> {
    let bearing = |label: u16| {
        let bits = pattern.nodes.iter().enumerate();
        bits.fold(0, |set, (u, node)| set | u8::from(node.label == label) << u)
    };
    let mut ways = Vec::with_capacity(constraints.len());
    for (constraint, one) in constraints.iter().enumerate() {
        let fetchable = bearing(one.label);
        if fetchable != 0 {
            ways.push(Way {
                constraint: constraint as u8,
                most: one.most,
                size: one.size,
                fetchable,
                choosable: one.labels.map(bearing),
            });
        }
    }
    ways
}

fn in_set(set: u8, node: u8) -> bool {
    set >> node & 1 == 1
}

impl Planner<'_> {
    fn cover_nodes(&mut self) -> Option<Vec<Row>> {
        let p = self.pattern.nodes.len();
        let mut rows = Vec::with_capacity(p);
        for _ in 0..p {
            let row = self.cheapest_node()?;
            self.covered |= 1 << row.fetched;
            self.figures[row.fetched as usize] = row.figure;
            rows.push(row);
        }
        Some(rows)
    }

    /// The smallest figure of all uncovered nodes; the first found wins a tie.
    fn cheapest_node(&self) -> Option<Row> {
        let mut best: Option<Row> = None;
        for node in (0..self.pattern.nodes.len() as u8).filter(|&u| !in_set(self.covered, u)) {
            for way in &self.ways {
                let row = self.fetch(way, node, None).map(|row| Row { number: node, ..row });
                best = smaller(best, row);
            }
        }
        best
    }

    /// The edge rows, once all nodes are covered.
    fn cover_edges(&self) -> Option<Vec<Row>> {
        let edges = self.pattern.edges.iter().enumerate();
        edges.map(|(edge, &ends)| self.cheapest_edge(edge as u8, ends)).collect()
    }

    fn cheapest_edge(&self, edge: u8, (from, to): (u8, u8)) -> Option<Row> {
        let mut best: Option<Row> = None;
        let (lower, higher) = (from.min(to), from.max(to));
        for way in &self.ways {
            for (fetched, other) in [(lower, higher), (higher, lower)] {
                let row = self.fetch(way, fetched, Some(other));
                best = smaller(best, row.map(|row| Row { number: edge, ..row }));
            }
        }
        best
    }

    /// The smallest figure for fetching a node by a constraint; `other` must be among the chosen.
    ///
    /// Figures are at least 1 and each label is chosen for by itself, so the smallest product has
    /// the smallest figure for each label, and the lowest such nodes come first in order.
    fn fetch(&self, way: &Way, node: u8, other: Option<u8>) -> Option<Row> {
        if !in_set(way.fetchable, node) {
            return None;
        }
        let near = self.covered & self.pattern.neighbours[node as usize];
        let mut chosen = [NONE; 3];
        let mut figure = way.most;
        let mut has_other = other.is_none();
        for (place, &choosable) in way.choosable[..way.size].iter().enumerate() {
            let forced = other.filter(|&end| in_set(choosable, end));
            has_other |= forced.is_some();
            let one = forced.or_else(|| self.cheapest_of(near & choosable))?;
            chosen[place] = one;
            figure = product(figure, self.figures[one as usize]);
        }
        let constraint = way.constraint;
        has_other.then_some(Row { number: 0, fetched: node, constraint, chosen, figure })
    }

    /// The node of a set with the smallest figure, the lowest of them.
    fn cheapest_of(&self, set: u8) -> Option<u8> {
        let nodes = (0..MAX_PATTERN_NODES as u8).filter(|&node| in_set(set, node));
        nodes.min_by_key(|&node| self.figures[node as usize])
    }
}

fn smaller(best: Option<Row>, row: Option<Row>) -> Option<Row> {
    match (best, row) {
        (Some(best), Some(row)) if row.figure < best.figure => Some(row),
        (None, row) => row,
        (best, _) => best,
    }
}

fn product(one: u32, other: u32) -> u32 {
    (one as u64 * other as u64).min(FIGURE_STOP as u64) as u32
}
