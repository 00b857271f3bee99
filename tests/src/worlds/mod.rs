//! Worlds, patterns and damage, drawn from fixed seeds.

mod damage;
mod limits;
mod panel;
mod random;
mod records;
mod small;

pub use damage::{
    change_bytes, damage_constraint, damage_header, damage_index, damage_length, damage_pattern,
    damage_record, make_list_unfit, pattern_of_count, scramble_edges, UNFIT_KINDS,
};
pub use limits::{
    clique_case, crossed_draft, exact_index_draft, full_draft, hub_draft, huge_hub_draft,
    over_limit_stores, thirty_two_case, too_many_entries_draft, too_many_groups_draft,
    uneven_hub_draft, widest_plan_case,
};
pub use panel::{
    panel_draft, panel_empty_patterns, panel_patterns, panel_refused_patterns, PANEL_SIZES,
};
pub use random::Random;
pub use records::{ConstraintRule, Node, PatternDraft, PatternNode, World};
pub use small::{
    admitted_case, small_build_case, small_draft, small_list_case, small_pattern, small_plan_case,
    small_store_case, small_world, unfit_case, wild_case,
};

use crate::reading;

/// What one call is lent: for building, `store` is the draft and `room` counts bytes; for planning
/// and listing, `work` and `room` count words. Rooms are filled with noise from `noise`.
#[derive(Debug, Clone, Default, PartialEq, Eq)]
pub struct Case {
    pub store: Vec<u8>,
    pub pattern: Vec<u8>,
    pub work: usize,
    pub room: usize,
    pub noise: u64,
}

impl Case {
    /// The result room of building, in bytes.
    pub fn room_bytes(&self) -> Vec<u8> {
        let mut random = Random::new(self.noise);
        (0..self.room).map(|_| random.next() as u8).collect()
    }

    /// The result room of planning and listing, in words.
    pub fn room_words(&self) -> Vec<u32> {
        noise_words(self.noise, self.room)
    }

    /// The working room of listing, in words.
    pub fn work_words(&self) -> Vec<u32> {
        noise_words(!self.noise, self.work)
    }
}

fn noise_words(seed: u64, length: usize) -> Vec<u32> {
    let mut random = Random::new(seed);
    (0..length).map(|_| random.next() as u32).collect()
}

/// The store of a draft; empty where building refuses.
pub fn store_of(draft: &[u8]) -> Vec<u8> {
    let index_bytes = 24 * reading::MAX_GROUPS as usize + 8 * reading::MAX_ENTRIES as usize;
    // Most indexes are small: try a room of some kilobytes before the largest.
    for spare in [1 << 14, index_bytes] {
        let mut room = vec![0; draft.len() + spare];
        let built = reading::build(draft, &mut room);
        if built.number != reading::number::ROOM {
            room.truncate(built.length as usize);
            return room;
        }
    }
    Vec::new()
}
