//! Worlds at the limits.

use super::random::Random;
use super::records::{store_header, ConstraintRule, PatternDraft, World};
use super::{store_of, Case};

/// Hubs labelled 4, each joined to all nodes of labels 1, 2 and 3, and {1,2,3} → (4, N).
pub fn hub_draft(counts: [usize; 3], hubs: u32, most: u32) -> Vec<u8> {
    hub_world(counts, hubs, most).draft()
}

fn hub_world(counts: [usize; 3], hubs: u32, most: u32) -> World {
    let mut world = World::default();
    (0..hubs).for_each(|hub| _ = world.add_node(4, hub as i32));
    for (label, count) in (1..).zip(counts) {
        for _ in 0..count {
            let node = world.add_node(label, 0);
            // Both ways round occur.
            (0..hubs).for_each(|hub| {
                world.edges.push(if (hub + node) % 3 == 0 { (node, hub) } else { (hub, node) })
            });
        }
    }
    world.constraints.push(ConstraintRule::new(&[1, 2, 3], 4, most));
    world
}

/// Exactly 262,144 groups and 1,048,576 entries: building answers 0.
pub fn exact_index_draft() -> Vec<u8> {
    hub_draft([64; 3], 4, 4)
}

/// One entry too many, all groups in their limit: building answers 11; N one less gives 4.
pub fn too_many_entries_draft(most: u32) -> Vec<u8> {
    let mut world = hub_world([64, 64, 63], 4, most);
    // 4 × 64 × 64 × 63 = 1,032,192 entries; 16,385 more, in one list.
    (0..16_385).for_each(|_| _ = world.add_node(5, 0));
    world.constraints.push(ConstraintRule::new(&[], 5, 16_385));
    world.draft()
}

/// 274,625 groups with one entry each: building answers 11.
pub fn too_many_groups_draft() -> Vec<u8> {
    hub_draft([65; 3], 1, 1)
}

/// A hub with some 10^12 keys, and N of 1: 11, or 4 if a second hub shares one whole key.
pub fn huge_hub_draft(shares_key: bool) -> Vec<u8> {
    let mut world = World::default();
    let (hub, second) = (world.add_node(4, 0), world.add_node(4, 1));
    for label in 1..=3 {
        for count in 0..20_000 {
            let node = world.add_node(label, 0);
            world.edges.push((hub, node));
            // The second hub shares many nodes of two labels, but of the third one at most.
            if count < if label < 3 { 10_000 } else { u32::from(shares_key) } {
                world.edges.push((node, second));
            }
        }
    }
    world.constraints.push(ConstraintRule::new(&[1, 2, 3], 4, 1));
    world.draft()
}

/// A hub joined to so many nodes of labels 1, 2, 3 and 5, and {1,2,3} → (4, 1): building answers 0.
pub fn uneven_hub_draft(counts: [usize; 4]) -> Vec<u8> {
    let mut world = World::default();
    let hub = world.add_node(4, 0);
    for (label, count) in [1, 2, 3, 5].into_iter().zip(counts) {
        for _ in 0..count {
            let node = world.add_node(label, 0);
            world.edges.push((hub, node));
        }
    }
    world.constraints.push(ConstraintRule::new(&[1, 2, 3], 4, 1));
    world.draft()
}

/// 60,000 nodes, each joined to two of 350 nodes of label 1 and to two of label 2: long neighbourhoods that share little.
pub fn crossed_draft() -> Vec<u8> {
    let mut world = World::default();
    (0..700).for_each(|id| _ = world.add_node(1 + (id / 350) as u16, 0));
    for place in 0..60_000u32 {
        let node = world.add_node(3, 0);
        let (one, two) = (place % 350, place / 350 % 350);
        world.edges.extend([(one, node), ((one + 1 + two) % 350, node)]);
        world.edges.extend([(node, 350 + two), (node, 350 + (two + 1 + one) % 350)]);
    }
    world.edges.sort_unstable();
    world.edges.dedup();
    world.constraints.push(ConstraintRule::new(&[1, 2], 3, 65_535));
    world.draft()
}

/// 65,535 nodes, 262,144 edges and 32 constraints that hold: building answers 0.
pub fn full_draft() -> Vec<u8> {
    let mut world = World::default();
    for id in 0..65_535u32 {
        world.add_node(1 + (id % 40) as u16, id as i32);
    }
    // Each node to the next four, then some edges back.
    for from in 0..65_535u32 {
        world.edges.extend((1..=4).map(|step| (from, from + step)).filter(|edge| edge.1 < 65_535));
    }
    let back = 262_144 - world.edges.len() as u32;
    world.edges.extend((0..back).map(|id| (id + 1, id)));
    for label in 1..=8 {
        world.constraints.push(ConstraintRule::new(&[], label, 1_639));
        world.constraints.push(ConstraintRule::new(&[label], label + 1, 1));
        world.constraints.push(ConstraintRule::new(&[label, label + 1], label + 2, 1));
        world.constraints.push(ConstraintRule::new(&[label, label + 1, label + 2], label + 3, 1));
    }
    world.draft()
}

/// Stores that are right but for one count just above its limit; every call answers 1.
pub fn over_limit_stores() -> Vec<Vec<u8>> {
    [65_536, 262_145, 33, 262_145, 1_048_577]
        .into_iter()
        .enumerate()
        .map(|(section, count)| {
            let mut counts = [0; 5];
            counts[section] = count;
            let words = store_header(counts);
            let mut store = vec![0; words[11] as usize];
            for (place, word) in store.as_chunks_mut().0.iter_mut().zip(words) {
                *place = word.to_le_bytes();
            }
            store
        })
        .collect()
}

/// Eight nodes of one label and all 56 edges, over so many nodes all joined both ways.
pub fn clique_case(nodes: u32) -> Case {
    let mut world = World::default();
    (0..nodes).for_each(|id| _ = world.add_node(1, id as i32));
    for from in 0..nodes {
        world.edges.extend((0..nodes).filter(|&to| to != from).map(|to| (from, to)));
    }
    world.constraints.push(ConstraintRule::new(&[], 1, nodes));
    world.constraints.push(ConstraintRule::new(&[1], 1, nodes - 1));
    let edges: Vec<(u8, u8)> =
        (0..8).flat_map(|from| (0..8).map(move |to| (from, to))).filter(|(a, b)| a != b).collect();
    let pattern = PatternDraft::plain(&[1; 8], &edges).bytes();
    let bound = (8 * nodes + 56 * nodes * (nodes - 1)) as usize;
    let matches: usize = (0..8).map(|less| (nodes as usize).saturating_sub(less)).product();
    Case { store: store_of(&world.draft()), pattern, work: 2 * bound, room: 8 * matches, noise: 7 }
}

/// A world of 32 constraints of all kinds.
fn thirty_two_world(random: &mut Random) -> World {
    let mut world = World::default();
    for id in 0..30u32 {
        world.add_node(1 + (id % 5) as u16, random.below(9) as i32);
    }
    for from in 0..30u32 {
        for to in (0..30).filter(|&to| to != from) {
            if random.percent(12) {
                world.edges.push((from, to));
            }
        }
    }
    // All S of at most one label make 30; two more of two and three labels.
    for label in 1..=5 {
        world.constraints.push(ConstraintRule::new(&[], label, 6));
        for key in 1..=5 {
            world.constraints.push(ConstraintRule::new(&[key], label, 6));
        }
    }
    world.constraints.push(ConstraintRule::new(&[1, 2], 3, 6));
    world.constraints.push(ConstraintRule::new(&[1, 2, 3], 4, 6));
    random.shuffle(&mut world.constraints);
    world
}

/// A world of 32 constraints of all kinds, and a pattern of 4 nodes.
pub fn thirty_two_case(seed: u64) -> Case {
    let mut random = Random::new(seed);
    let world = thirty_two_world(&mut random);
    let labels = [1, 2, 3, 4];
    let edges: Vec<(u8, u8)> = [(0, 1), (0, 2), (3, 0), (2, 1), (3, 1)]
        .into_iter()
        .filter(|_| random.percent(60))
        .collect();
    let pattern = PatternDraft::plain(&labels, &edges).bytes();
    let store = store_of(&world.draft());
    Case { store, pattern, work: 65_536, room: 8_192, noise: seed }
}

/// The same with a pattern of 8 nodes and 20 edges.
pub fn widest_plan_case() -> Case {
    let world = thirty_two_world(&mut Random::new(1));
    let edges: Vec<(u8, u8)> =
        (0..8).flat_map(|from| (from + 1..8).map(move |to| (from, to))).take(20).collect();
    let pattern = PatternDraft::plain(&[1, 2, 3, 4, 5, 1, 2, 3], &edges).bytes();
    let store = store_of(&world.draft());
    Case { store, pattern, work: 0, room: 512, noise: 1 }
}
