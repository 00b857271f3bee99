//! What listing tells.

use crate::boundary::MATCHES_UPPER;
use std::slice::ChunksExact;

/// The results of listing.
#[derive(Debug, Clone, Copy, PartialEq, Eq)]
pub struct Listed {
    /// How many matches there are.
    pub matches: u64,
    /// Entries read for nodes.
    pub node_entries: u32,
    /// Entries read for edges.
    pub edge_entries: u32,
    /// The bound T: no more entries than this are read.
    pub bound: u32,
}

impl Listed {
    pub(crate) fn of_results(results: [u32; 8]) -> Listed {
        let [matches, node_entries, edge_entries, bound, ..] = results;
        let upper = results.into_iter().nth(MATCHES_UPPER).unwrap_or(0);
        let matches = u64::from(upper) << 32 | u64::from(matches);
        Listed { matches, node_entries, edge_entries, bound }
    }

    /// All entries that were read.
    pub fn entries(&self) -> u64 {
        u64::from(self.node_entries) + u64::from(self.edge_entries)
    }
}

/// The matches of a pattern, each a graph node for every pattern node, and what was read for them.
///
/// ```
/// # use bahrufaz::{Constraint, Draft, Pattern};
/// # let constraints = vec![Constraint::new(&[], 1, 2)];
/// # let draft = Draft { nodes: vec![(1, 0), (1, 0)], constraints, ..Draft::default() };
/// # let (store, pattern) = (draft.build()?, Pattern::plain(&[1], &[]).bytes()?);
/// let listing = store.list(&pattern)?;
/// assert_eq!(listing.len(), 2);
/// for row in &listing {
///     println!("{row:?}");
/// }
/// # Ok::<(), bahrufaz::Error>(())
/// ```
#[derive(Debug, Clone, PartialEq, Eq)]
pub struct Listing {
    /// What listing told beside the matches.
    pub told: Listed,
    ids: Vec<u32>,
    width: usize,
}

impl Listing {
    /// The listing in a room that the matches were written into, so many words each.
    pub(crate) fn of_room(told: Listed, mut ids: Vec<u32>, width: usize) -> Listing {
        let matches = usize::try_from(told.matches).unwrap_or(usize::MAX);
        ids.truncate(matches.saturating_mul(width));
        ids.shrink_to_fit();
        Listing { told, ids, width }
    }

    /// The matches, ascending: rows of node ids in the order of the pattern's nodes.
    pub fn rows(&self) -> ChunksExact<'_, u32> {
        // a pattern that is answered has a node, so the least of 1 changes nothing
        self.ids.chunks_exact(self.width.max(1))
    }

    /// How many matches there are.
    pub fn len(&self) -> usize {
        self.rows().len()
    }

    /// Whether there is no match.
    pub fn is_empty(&self) -> bool {
        self.ids.is_empty()
    }
}

impl<'a> IntoIterator for &'a Listing {
    type Item = &'a [u32];
    type IntoIter = ChunksExact<'a, u32>;

    fn into_iter(self) -> ChunksExact<'a, u32> {
        self.rows()
    }
}

#[cfg(test)]
mod tests {
    use super::*;

    #[test]
    fn matches_beyond_32_bits_are_counted() {
        let mut results = [5, 6, 7, 8, 0, 0, 0, 0];
        results[MATCHES_UPPER] = 3;
        let told = Listed::of_results(results);
        assert_eq!(told.matches, 0x3_0000_0005);
        assert_eq!((told.entries(), told.bound), (13, 8));
    }
}
