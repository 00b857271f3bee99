//! Small worlds, in which every number of every call occurs often.

use super::damage::*;
use super::limits::{hub_draft, too_many_groups_draft};
use super::random::Random;
use super::records::{store_header, ConstraintRule, PatternDraft, PatternNode, World};
use super::{store_of, Case};
use crate::reading;

/// A world of at most 10 nodes and 4 labels; its constraints hold if asked.
pub fn small_world(random: &mut Random, holds: bool) -> World {
    let mut world = World::default();
    let mut labels: Vec<u16> = (1..=2 + random.below(3) as u16).collect();
    if random.percent(5) {
        labels[0] = 65_535;
        labels.sort_unstable();
    }
    for _ in 0..random.below(11) {
        let value = match random.below(12) {
            0 => i32::MIN,
            1 => i32::MAX,
            _ => random.below(7) as i32 - 3,
        };
        world.add_node(random.pick(&labels), value);
    }
    add_edges(random, &mut world, &[5, 15, 30, 50, 80, 100]);
    add_constraints(random, &mut world, &labels);
    if !holds && !world.constraints.is_empty() {
        let one = random.below(world.constraints.len());
        let most = world.constraints[one].most;
        world.constraints[one].most = 1 + random.below(most as usize) as u32;
    }
    world
}

fn add_edges(random: &mut Random, world: &mut World, densities: &[usize]) {
    let n = world.nodes.len() as u32;
    let density = random.pick(densities);
    for from in 0..n {
        for to in (0..n).filter(|&to| to != from) {
            if random.percent(density) {
                world.edges.push((from, to));
            }
        }
    }
}

/// Constraints that hold: now most with S of at most one label, now in layers, now of chance.
fn add_constraints(random: &mut Random, world: &mut World, labels: &[u16]) {
    let mut wanted: Vec<(Vec<u16>, u16)> = Vec::new();
    let kind = random.below(100);
    if kind < 65 {
        for &label in labels {
            wanted.push((Vec::new(), label));
            labels.iter().for_each(|&key| wanted.push((vec![key], label)));
        }
        wanted.retain(|_| random.percent(90));
    } else if kind < 85 {
        wanted = layers(random, labels);
    }
    let others = if kind < 85 { 3 } else { 6 };
    for _ in 0..random.below(others) {
        let mut key: Vec<u16> = labels.to_vec();
        random.shuffle(&mut key);
        key.truncate(random.below(4));
        key.sort_unstable();
        wanted.push((key, random.pick(labels)));
    }
    add_rules(random, world, wanted);
}

/// Adds these constraints in some order, each with an N that holds.
fn add_rules(random: &mut Random, world: &mut World, mut wanted: Vec<(Vec<u16>, u16)>) {
    random.shuffle(&mut wanted);
    let spare = random.pick(&[0, 0, 1, 3]);
    for (key, label) in wanted {
        let one = ConstraintRule::new(&key, label, 1);
        if world.constraints.iter().all(|had| (had.labels, had.label) != (one.labels, one.label)) {
            let longest = longest_list(world, &key, label, &mut Vec::new()) as u32;
            let most = (longest + random.below(spare + 1) as u32).max(1);
            world.constraints.push(ConstraintRule { most, ..one });
        }
    }
}

/// Each label by a key of labels before it, so that plans need keys of two and three nodes.
fn layers(random: &mut Random, labels: &[u16]) -> Vec<(Vec<u16>, u16)> {
    let mut order = labels.to_vec();
    random.shuffle(&mut order);
    let mut wanted = Vec::new();
    for (place, &label) in order.iter().enumerate() {
        let mut key = order[..place].to_vec();
        if random.percent(20) {
            key.truncate(random.below(place + 1));
        }
        key.sort_unstable();
        wanted.push((key, label));
    }
    wanted
}

/// Two or three nodes of each label, well joined, in layers; a node of each label is wanted.
fn layered_world(random: &mut Random) -> (World, PatternDraft) {
    let mut world = World::default();
    let labels: Vec<u16> = (1..=3 + random.below(2) as u16).collect();
    for _ in 0..labels.len() * 2 + random.below(3) {
        let label = labels[world.nodes.len() % labels.len()];
        world.add_node(label, random.below(3) as i32);
    }
    add_edges(random, &mut world, &[50, 70, 100]);
    let wanted = layers(random, &labels);
    add_rules(random, &mut world, wanted);
    let mut order = labels;
    random.shuffle(&mut order);
    let mut pattern = PatternDraft::plain(&order, &[]);
    let kept = random.pick(&[60, 90]);
    for from in 0..order.len() as u8 {
        for to in from + 1..order.len() as u8 {
            if random.percent(kept) {
                pattern.edges.push(random.pick(&[(from, to), (to, from)]));
            }
        }
    }
    for node in &mut pattern.nodes {
        add_conditions(random, node, 1, 15);
    }
    (world, pattern)
}

/// The length of the longest list of a constraint, by trying every key.
fn longest_list(world: &World, key: &[u16], label: u16, chosen: &mut Vec<u32>) -> usize {
    let n = world.nodes.len() as u32;
    let labelled = |id: &u32, label: u16| world.nodes[*id as usize].label == label;
    if chosen.len() == key.len() {
        let listed = |id: &u32| chosen.iter().all(|&node| world.neighbours(node, *id));
        return (0..n).filter(|id| labelled(id, label) && listed(id)).count();
    }
    let mut longest = 0;
    let next = key[chosen.len()];
    for id in (0..n).filter(|id| labelled(id, next)) {
        chosen.push(id);
        longest = longest.max(longest_list(world, key, label, chosen));
        chosen.pop();
    }
    longest
}

/// A pattern for a world: now taken from its graph, now of chance.
pub fn small_pattern(random: &mut Random, world: &World) -> PatternDraft {
    let most = if random.percent(10) { 8 } else { 5 };
    let p = 1 + random.below(most);
    if world.nodes.is_empty() || random.percent(30) {
        chance_pattern(random, world, p)
    } else {
        graph_pattern(random, world, p)
    }
}

fn chance_pattern(random: &mut Random, world: &World, p: usize) -> PatternDraft {
    let mut labels: Vec<u16> = world.nodes.iter().map(|node| node.label).collect();
    labels.extend([1, 2]);
    let chosen: Vec<u16> = (0..p).map(|_| random.pick(&labels)).collect();
    let mut pattern = PatternDraft::plain(&chosen, &[]);
    for node in &mut pattern.nodes {
        let value = random.below(7) as i32 - 3;
        add_conditions(random, node, value, 20);
    }
    let density = random.pick(&[10, 30, 60, 100]);
    for from in 0..p as u8 {
        for to in (0..p as u8).filter(|&to| to != from) {
            if random.percent(density) {
                pattern.edges.push((from, to));
            }
        }
    }
    pattern
}

/// Grows a set of joined nodes and takes most of the edges between them.
fn graph_pattern(random: &mut Random, world: &World, p: usize) -> PatternDraft {
    let n = world.nodes.len() as u32;
    let mut chosen = vec![random.below(n as usize) as u32];
    while chosen.len() < p {
        let joined = |id: &u32| chosen.iter().any(|&had| world.neighbours(had, *id));
        let near: Vec<u32> = (0..n).filter(|id| !chosen.contains(id) && joined(id)).collect();
        if near.is_empty() {
            break;
        }
        chosen.push(random.pick(&near));
    }
    random.shuffle(&mut chosen);
    let mut pattern = PatternDraft::default();
    for &id in &chosen {
        let node = world.nodes[id as usize];
        let mut wanted = PatternNode { label: node.label, ..PatternNode::default() };
        add_conditions(random, &mut wanted, node.value, 30);
        pattern.nodes.push(wanted);
    }
    let kept = random.pick(&[50, 90, 100]);
    for &(from, to) in &world.edges {
        let place = |id: u32| chosen.iter().position(|&had| had == id).map(|at| at as u8);
        if let (Some(from), Some(to)) = (place(from), place(to)) {
            if random.percent(kept) {
                pattern.edges.push((from, to));
            }
        }
    }
    pattern
}

/// Conditions around a value, which meets most of them.
fn add_conditions(random: &mut Random, node: &mut PatternNode, value: i32, chance: usize) {
    if !random.percent(chance) {
        return;
    }
    for place in 0..1 + random.below(2) {
        let operator = 1 + random.below(5) as u8;
        let step = match operator {
            2 => 1,
            3 => -1,
            _ => 0,
        };
        let off = if random.percent(15) { random.below(3) as i32 - 1 } else { 0 };
        node.operators[place] = operator;
        node.constants[place] = value.saturating_add(step).saturating_add(off);
    }
}

/// A draft, sound or damaged; building it gives each of 0, 1, 2, 3, 4 and 11.
pub fn small_draft(seed: u64) -> Vec<u8> {
    let mut random = Random::new(seed);
    let holds = random.percent(75);
    let mut draft = small_world(&mut random, holds).draft();
    match random.below(100) {
        0..6 => damage_header(&mut random, &mut draft),
        6..10 => damage_length(&mut random, &mut draft),
        10..18 => damage_record(&mut random, &mut draft),
        18..26 => damage_constraint(&mut random, &mut draft),
        26..32 => change_bytes(&mut random, &mut draft),
        32..34 => draft = (0..random.below(100)).map(|_| random.next() as u8).collect(),
        34..36 => {
            // More entries than fit; two hubs need N of 2.
            let hubs = 1 + random.below(2) as u32;
            draft = hub_draft([102 + random.below(3); 3], hubs, 1 + random.below(2) as u32);
        }
        // A store with an index is no draft.
        36..40 => draft = store_of(&draft),
        40 if random.percent(30) => draft = too_many_groups_draft(),
        // Two rules broken: the order of the numbers decides.
        41..44 => {
            damage_constraint(&mut random, &mut draft);
            damage_record(&mut random, &mut draft);
        }
        44..46 => {
            damage_record(&mut random, &mut draft);
            damage_header(&mut random, &mut draft);
        }
        _ => {}
    }
    draft
}

/// A draft and a room for its store: none, one short, exact, longer.
pub fn small_build_case(seed: u64) -> Case {
    let mut random = Random::new(!seed);
    let store = small_draft(seed);
    let length = store_of(&store).len();
    let room = match random.below(8) {
        0 => 0,
        1 | 2 => length.saturating_sub(1),
        3 => random.below(length + 1),
        4 | 5 => length,
        _ => length + 1 + random.below(40),
    };
    Case { store, room, noise: random.next(), ..Case::default() }
}

/// A store to admit: admitting gives each of 0 to 5.
pub fn small_store_case(seed: u64) -> Case {
    let mut random = Random::new(seed);
    let mut store = store_of(&small_world(&mut random, true).draft());
    match random.below(100) {
        0..6 => damage_header(&mut random, &mut store),
        6..10 => damage_length(&mut random, &mut store),
        10..20 => damage_record(&mut random, &mut store),
        20..28 => damage_constraint(&mut random, &mut store),
        28..34 => change_bytes(&mut random, &mut store),
        34..42 => damage_index(&mut random, &mut store),
        42..56 => {
            let kind = random.below(UNFIT_KINDS);
            make_list_unfit(&mut random, &mut store, kind);
        }
        // A draft is admitted only if its index is empty.
        56..60 => store = small_world(&mut random, true).draft(),
        60..66 => store = small_world(&mut random, false).draft(),
        66..68 => {
            store = hub_draft([102; 3], 1 + random.below(2) as u32, 1 + random.below(2) as u32)
        }
        68..70 => scramble_edges(&mut random, &mut store),
        // Two rules broken: the order of the numbers decides.
        70..73 => {
            damage_index(&mut random, &mut store);
            damage_constraint(&mut random, &mut store);
        }
        73..76 => {
            damage_constraint(&mut random, &mut store);
            damage_record(&mut random, &mut store);
        }
        _ => {}
    }
    Case { store, noise: random.next(), ..Case::default() }
}

/// Raises some N so far that T may pass 65,536.
fn raise_constraints(random: &mut Random, world: &mut World) {
    for one in &mut world.constraints {
        if random.percent(50) {
            one.most = random.pick(&[16, 100, 256, 4_096, 32_768, 65_535]);
        }
    }
}

/// Takes away some constraints, so that less is covered.
fn drop_constraints(random: &mut Random, world: &mut World) {
    let kept = random.pick(&[30, 60, 80]);
    world.constraints.retain(|_| random.percent(kept));
}

fn pattern_world(random: &mut Random) -> (World, PatternDraft) {
    let (mut world, pattern) = if random.percent(20) {
        layered_world(random)
    } else {
        let world = small_world(random, true);
        let pattern = small_pattern(random, &world);
        (world, pattern)
    };
    match random.below(10) {
        0 | 1 => raise_constraints(random, &mut world),
        2 => drop_constraints(random, &mut world),
        _ => {}
    }
    (world, pattern)
}

/// A store, a pattern and a room: planning gives each of 0, 1, 3, 6, 7, 8 and 10.
pub fn small_plan_case(seed: u64) -> Case {
    let mut random = Random::new(seed);
    let (world, pattern) = pattern_world(&mut random);
    let mut store = world.draft();
    if random.percent(50) {
        store = store_of(&store);
    }
    let mut pattern = pattern.bytes();
    let words = 8 * (pattern[4] as usize + pattern[8] as usize);
    damage_case(&mut random, &mut store, &mut pattern);
    let room = match random.below(10) {
        0 => 0,
        1 => words - 1,
        2 => random.below(words),
        3..6 => words,
        _ => words + 1 + random.below(20),
    };
    Case { store, pattern, room, noise: random.next(), ..Case::default() }
}

/// Damage that planning and listing refuse with 1, 3 or 6, or overlook.
fn damage_case(random: &mut Random, store: &mut Vec<u8>, pattern: &mut Vec<u8>) {
    match random.below(100) {
        0..5 => damage_header(random, store),
        5..8 => damage_length(random, store),
        8..14 => damage_constraint(random, store),
        14..22 => damage_pattern(random, pattern),
        22..25 => *pattern = pattern_of_count(random.pick(&[0, 9])),
        25..28 => change_bytes(random, store),
        28..30 => change_bytes(random, pattern),
        30..33 => damage_record(random, store),
        33..35 => scramble_edges(random, store),
        // Two rules broken: the order of the numbers decides.
        35..37 => {
            damage_constraint(random, store);
            damage_pattern(random, pattern);
        }
        37..39 => {
            damage_constraint(random, store);
            damage_header(random, store);
        }
        _ => {}
    }
}

/// A store, a pattern and both rooms: listing gives each of 0, 1, 3 and 5 to 10.
pub fn small_list_case(seed: u64) -> Case {
    let mut random = Random::new(seed);
    let (world, pattern) = pattern_world(&mut random);
    let mut store = store_of(&world.draft());
    let mut pattern = pattern.bytes();
    if random.percent(35) {
        for _ in 0..1 + random.below(2) {
            if random.percent(50) {
                damage_index(&mut random, &mut store);
            } else {
                let kind = random.below(UNFIT_KINDS);
                make_list_unfit(&mut random, &mut store, kind);
            }
        }
    } else if random.percent(50) {
        damage_case(&mut random, &mut store, &mut pattern);
    }
    let (work, room) = small_rooms(&mut random, &store, &pattern);
    Case { store, pattern, work, room, noise: random.next() }
}

/// Rooms one short, exact and longer, as the reading says what is needed.
fn small_rooms(random: &mut Random, store: &[u8], pattern: &[u8]) -> (usize, usize) {
    let bound = reading::plan(store, pattern, &mut [0; 8 * 64]).bound as usize;
    let p = pattern.get(4).map_or(1, |&p| p as usize);
    let listed = reading::list(store, pattern, &mut vec![0; 2 * bound], &mut [0; 8_192]);
    let words = p * listed.matches as usize;
    let work = match random.below(10) {
        0 => (2 * bound).saturating_sub(1),
        1 => random.below(2 * bound + 1),
        2..6 => 2 * bound,
        _ => 2 * bound + 1 + random.below(20),
    };
    let room = match random.below(10) {
        0 | 1 => words.saturating_sub(1),
        2 => random.below(words + 1),
        3..6 => words,
        _ => words + 1 + random.below(20),
    };
    (work, room)
}

/// An admitted store and a pattern that is mostly answered, with rooms that mostly suffice.
pub fn admitted_case(seed: u64) -> Case {
    let mut random = Random::new(seed);
    let (world, pattern) = pattern_world(&mut random);
    let (store, pattern) = (store_of(&world.draft()), pattern.bytes());
    let bound = reading::plan(&store, &pattern, &mut [0; 8 * 64]).bound as usize;
    Case { store, pattern, work: 2 * bound, room: 8_192, noise: random.next() }
}

/// A case in which some list is made unfit in one way; None where the store has no list for it.
pub fn unfit_case(seed: u64, kind: usize) -> Option<Case> {
    let mut case = admitted_case(seed);
    let mut random = Random::new(!seed);
    make_list_unfit(&mut random, &mut case.store, kind).then_some(case)
}

/// A store with sound constraints whose groups and entries are drawn by chance, now sorted.
pub fn wild_case(seed: u64) -> Case {
    let mut random = Random::new(seed);
    let (mut world, pattern) = pattern_world(&mut random);
    let pattern = pattern.bytes();
    let most = random.pick(&[1, 2, 4]);
    world.constraints.iter_mut().for_each(|one| one.most = one.most.max(most));
    let mut entries: Vec<(u32, u8)> = Vec::new();
    let mut groups: Vec<[u32; 6]> = Vec::new();
    for _ in 0..random.below(60) {
        let Some(mut group) = wild_group(&mut random, &world, &mut entries) else { break };
        if !groups.is_empty() && random.percent(10) {
            // Lists that overlap: the start or all of an earlier one.
            let earlier = random.pick(&groups);
            group[4] = earlier[4];
            group[5] = random.pick(&[group[5].min(earlier[5]), earlier[5]]);
        }
        groups.push(group);
    }
    if random.percent(60) {
        groups.sort_unstable();
    }
    let store = with_index(&world, &groups, &entries);
    let bound = reading::plan(&store, &pattern, &mut [0; 8 * 64]).bound as usize;
    Case { store, pattern, work: 2 * bound + 3, room: 1 << 16, noise: random.next() }
}

/// A group of some constraint with a list that is mostly fit.
fn wild_group(
    random: &mut Random,
    world: &World,
    entries: &mut Vec<(u32, u8)>,
) -> Option<[u32; 6]> {
    if world.constraints.is_empty() || world.nodes.is_empty() {
        return None;
    }
    let constraint = random.below(world.constraints.len());
    let one = world.constraints[constraint];
    let labelled = |label: u16| -> Vec<u32> {
        let ids = 0..world.nodes.len() as u32;
        ids.filter(|&id| world.nodes[id as usize].label == label).collect()
    };
    let mut key = [u32::MAX; 3];
    for (place, label) in one.key_labels().into_iter().enumerate() {
        let nodes = labelled(label);
        key[place] = if nodes.is_empty() { 0 } else { random.pick(&nodes) };
    }
    let start = entries.len() as u32;
    for id in labelled(one.label) {
        if random.percent(50) && entries.len() as u32 - start < one.most {
            let bits = (0..one.key_labels().len()).map(|place| {
                let either = 1 + random.below(3) as u8;
                either << (2 * place)
            });
            entries.push((id, bits.sum()));
        }
    }
    if random.percent(4) {
        entries.push((random.below(12) as u32, random.next() as u8));
    }
    let count = entries.len() as u32 - start;
    Some([constraint as u32, key[0], key[1], key[2], start, count])
}

/// A draft's records with this index.
fn with_index(world: &World, groups: &[[u32; 6]], entries: &[(u32, u8)]) -> Vec<u8> {
    let mut store = world.draft();
    let count = |place: usize| {
        u32::from_le_bytes(
            [4 * place, 4 * place + 1, 4 * place + 2, 4 * place + 3].map(|at| store[at]),
        )
    };
    let counts = [count(1), count(2), count(3), groups.len() as u32, entries.len() as u32];
    for (place, word) in store.as_chunks_mut().0.iter_mut().zip(store_header(counts)) {
        *place = word.to_le_bytes();
    }
    groups.iter().flatten().for_each(|word| store.extend(word.to_le_bytes()));
    for (id, directions) in entries {
        store.extend(id.to_le_bytes());
        store.extend([*directions, 0, 0, 0]);
    }
    store
}
