//! The four calls: build, admit, plan and list, with a fixed outcome for all input.

mod graph;
mod index;
mod listing;
mod pattern;
mod planning;
mod store;

use index::Index;
use pattern::Pattern;
use planning::Plan;
use store::Store;

pub use store::{MAX_CONSTRAINTS, MAX_EDGES, MAX_ENTRIES, MAX_GROUPS, MAX_NODES};

/// The numbers given back.
pub mod number {
    pub const ANSWERED: u32 = 0;
    pub const HEADER: u32 = 1;
    pub const RECORD: u32 = 2;
    pub const CONSTRAINT: u32 = 3;
    pub const LONG_LIST: u32 = 4;
    pub const UNFIT: u32 = 5;
    pub const PATTERN: u32 = 6;
    pub const UNCOVERED: u32 = 7;
    pub const BOUND: u32 = 8;
    pub const WORK: u32 = 9;
    pub const ROOM: u32 = 10;
    pub const INDEX: u32 = 11;
}

/// The result of building: the number and the length of the store written.
#[derive(Debug, Default, PartialEq, Eq, Clone, Copy)]
pub struct Built {
    pub number: u32,
    pub length: u32,
}

/// The result of planning: the number and the bound T.
#[derive(Debug, Default, PartialEq, Eq, Clone, Copy)]
pub struct Planned {
    pub number: u32,
    pub bound: u32,
}

/// The result of listing: the number, matches, entries read and the bound T.
#[derive(Debug, Default, PartialEq, Eq, Clone, Copy)]
pub struct Listed {
    pub number: u32,
    pub matches: u64,
    pub node_entries: u32,
    pub edge_entries: u32,
    pub bound: u32,
}

/// Builds the store of a draft into the room; refusals in the order 1, 2, 3, 4, 11, 10.
pub fn build(draft: &[u8], room: &mut [u8]) -> Built {
    match try_build(draft, room) {
        Ok(length) => Built { number: number::ANSWERED, length },
        Err(number) => Built { number, length: 0 },
    }
}

/// Admits a store exactly if building from its own draft gives its bytes; order 1, 2, 3, 4, 5.
pub fn admit(store: &[u8]) -> u32 {
    try_admit(store).err().unwrap_or(number::ANSWERED)
}

/// Writes the plan's rows of 8 words into the room; refusals in the order 1, 3, 6, 7, 8, 10.
pub fn plan(store: &[u8], pattern: &[u8], room: &mut [u32]) -> Planned {
    match try_plan(store, pattern, room) {
        Ok(bound) => Planned { number: number::ANSWERED, bound },
        Err(number) => Planned { number, bound: 0 },
    }
}

/// Writes the matches into the room; refusals in the order 1, 3, 6, 7, 8, 9, 5, 10.
pub fn list(store: &[u8], pattern: &[u8], work: &mut [u32], room: &mut [u32]) -> Listed {
    try_list(store, pattern, work, room)
        .unwrap_or_else(|number| Listed { number, ..Listed::default() })
}

fn try_build(draft: &[u8], room: &mut [u8]) -> Result<u32, u32> {
    let draft = Store::open(draft).ok_or(number::HEADER)?;
    if !draft.groups.is_empty() || !draft.entries.is_empty() {
        return Err(number::HEADER);
    }
    let index = built_index(&draft)?;
    let length = index.store_length(&draft);
    let room = room.get_mut(..length).ok_or(number::ROOM)?;
    index.write_store(&draft, room);
    Ok(length as u32)
}

fn try_admit(store: &[u8]) -> Result<(), u32> {
    let store = Store::open(store).ok_or(number::HEADER)?;
    let index = built_index(&store).map_err(|number| match number {
        number::INDEX => number::UNFIT,
        other => other,
    })?;
    if index.equals(store.groups, store.entries) {
        Ok(())
    } else {
        Err(number::UNFIT)
    }
}

/// The index of the graph in the node, edge and constraint records: refusals 2, 3, 4, 11.
fn built_index(store: &Store) -> Result<Index, u32> {
    store.check_records()?;
    let constraints = store.constraints()?;
    Index::build(&graph::Graph::new(store.nodes, store.edges), &constraints)
}

fn try_plan(store: &[u8], pattern: &[u8], room: &mut [u32]) -> Result<u32, u32> {
    let store = Store::open(store).ok_or(number::HEADER)?;
    let constraints = store.constraints()?;
    let pattern = Pattern::open(pattern).ok_or(number::PATTERN)?;
    let plan = Plan::new(&pattern, &constraints)?;
    let room = room.get_mut(..plan.words()).ok_or(number::ROOM)?;
    plan.write(room);
    Ok(plan.bound)
}

fn try_list(
    store: &[u8],
    pattern: &[u8],
    work: &mut [u32],
    room: &mut [u32],
) -> Result<Listed, u32> {
    let store = Store::open(store).ok_or(number::HEADER)?;
    let constraints = store.constraints()?;
    let pattern = Pattern::open(pattern).ok_or(number::PATTERN)?;
    let plan = Plan::new(&pattern, &constraints)?;
    let work = work.get_mut(..2 * plan.bound as usize).ok_or(number::WORK)?;
    // From here on the edge section is not lent any more.
    let lists = listing::Lists {
        nodes: store.nodes,
        constraints: &constraints,
        groups: store.groups,
        entries: store.entries,
    };
    let listed = listing::list(&lists, &pattern, &plan, work, room);
    work.fill(0);
    listed
}
