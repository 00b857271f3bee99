//! Damage to stores and patterns: most of it breaks one rule, some of it none.

use super::random::Random;
use super::records::store_header;

/// How many kinds of unfit list there are.
pub const UNFIT_KINDS: usize = 7;

const EXTREMES: [u32; 12] = [
    0,
    1,
    2,
    0x7FFF_FFFF,
    0x8000_0000,
    0xFFFF_FFFE,
    0xFFFF_FFFF,
    65_535,
    65_536,
    262_144,
    262_145,
    1_048_577,
];

fn get(bytes: &[u8], at: usize) -> u32 {
    u32::from_le_bytes([bytes[at], bytes[at + 1], bytes[at + 2], bytes[at + 3]])
}

fn set(bytes: &mut [u8], at: usize, word: u32) {
    bytes[at..at + 4].copy_from_slice(&word.to_le_bytes());
}

/// The counts n, m, k, g, e of a store with a whole header.
fn counts(store: &[u8]) -> [usize; 5] {
    std::array::from_fn(|count| get(store, 4 + 4 * count) as usize)
}

/// Where a record of a section (0 to 4) stands in a store whose header is right.
fn record_at(store: &[u8], section: usize, record: usize) -> usize {
    get(store, 24 + 4 * section) as usize + [8, 8, 12, 24, 8][section] * record
}

/// Some record of a section, if it has any.
fn some_record(random: &mut Random, store: &[u8], section: usize) -> Option<usize> {
    let count = counts(store)[section];
    (count > 0).then(|| random.below(count)).map(|record| record_at(store, section, record))
}

/// Changes up to three bytes anywhere.
pub fn change_bytes(random: &mut Random, bytes: &mut [u8]) {
    for _ in 0..1 + random.below(3) {
        if !bytes.is_empty() {
            let at = random.below(bytes.len());
            bytes[at] = random.pick(&[0, 1, 0xFF, bytes[at] ^ 1, bytes[at] ^ 0x80]);
        }
    }
}

/// Cuts or lengthens the bytes, with or without the total in the header.
pub fn damage_length(random: &mut Random, bytes: &mut Vec<u8>) {
    let length = bytes.len();
    let new_length = match random.below(5) {
        0 => length.saturating_sub(1 + random.below(9)),
        1 => length + 1 + random.below(9),
        2 => random.below(48),
        3 => 0,
        _ => random.below(length + 1),
    };
    bytes.resize(new_length, 0);
    if random.percent(30) && new_length >= 48 {
        set(bytes, 44, new_length as u32);
    }
}

/// Damages the header of a store: extreme words, shifted offsets, counts that wrap.
pub fn damage_header(random: &mut Random, store: &mut [u8]) {
    if store.len() < 48 {
        return;
    }
    let word = 4 * random.below(12);
    let old = get(store, word);
    match random.below(6) {
        0 => set(store, word, old.wrapping_add(1)),
        1 => set(store, word, old.wrapping_sub(1)),
        2 => set(store, word, random.next() as u32),
        3 => wrap_counts(random, store),
        _ => set(store, word, random.pick(&EXTREMES)),
    }
}

/// Counts so large that their section takes no bytes if lengths are kept to 32 bits.
fn wrap_counts(random: &mut Random, store: &mut [u8]) {
    let mut wrapped = counts(store).map(|count| count as u32);
    let (section, step) =
        random.pick(&[(0, 1 << 29), (1, 1 << 29), (2, 1 << 30), (3, 1 << 29), (4, 1 << 29)]);
    wrapped[section] = wrapped[section].wrapping_add(step);
    for (word, value) in store_header(wrapped).into_iter().enumerate() {
        set(store, 4 * word, value);
    }
}

/// Damages a node or edge record of a store or draft whose header is right.
pub fn damage_record(random: &mut Random, store: &mut [u8]) {
    let n = counts(store)[0] as u32;
    if random.percent(40) {
        let Some(at) = some_record(random, store, 0) else { return };
        match random.below(3) {
            0 => store[at..at + 2].fill(0),
            1 => store[at + 2] = 1,
            _ => store[at + 3] = 0x80,
        }
        return;
    }
    let Some(at) = some_record(random, store, 1) else { return };
    let (from, to) = (get(store, at), get(store, at + 4));
    let (new_from, new_to) = match random.below(6) {
        0 => (from, from),
        1 => (n, to),
        2 => (from, n),
        3 => (to, from),
        4 => (from, u32::MAX),
        _ => (random.below(n as usize) as u32, to),
    };
    set(store, at, new_from);
    set(store, at + 4, new_to);
}

/// Damages a constraint record of a store or draft whose header is right.
pub fn damage_constraint(random: &mut Random, store: &mut [u8]) {
    let Some(at) = some_record(random, store, 2) else { return };
    match random.below(8) {
        0 => set(store, at + 8, 0),
        1 => set(store, at + 8, random.pick(&[65_536, 65_537, u32::MAX])),
        2 => store[at + 6..at + 8].fill(0),
        3 => store[at..at + 6].copy_from_slice(&[2, 0, 2, 0, 0, 0]),
        4 => store[at..at + 6].copy_from_slice(&[3, 0, 1, 0, 0, 0]),
        5 => store[at..at + 6].copy_from_slice(&[0, 0, 1, 0, 0, 0]),
        6 => store[at..at + 6].copy_from_slice(&[1, 0, 0, 0, 2, 0]),
        _ => {
            // The S and l of another constraint, its N kept.
            let Some(other) = some_record(random, store, 2) else { return };
            store.copy_within(other..other + 8, at);
        }
    }
}

/// Writes noise over the edge records, which listing must not look at.
pub fn scramble_edges(random: &mut Random, store: &mut [u8]) {
    let (from, to) = (record_at(store, 1, 0), record_at(store, 2, 0));
    store[from..to].iter_mut().for_each(|byte| *byte = random.next() as u8);
}

/// Damages groups or entries in ways that need not make a list unfit.
pub fn damage_index(random: &mut Random, store: &mut [u8]) {
    let [n, _, k, g, e] = counts(store);
    if g == 0 || e == 0 {
        return;
    }
    let group = record_at(store, 3, random.below(g));
    let other = record_at(store, 3, random.below(g));
    let entry = record_at(store, 4, random.below(e));
    match random.below(10) {
        // Unsorted groups.
        0 => (0..24).for_each(|byte| store.swap(group + byte, other + byte)),
        1 => {
            let groups = record_at(store, 3, 0);
            store[groups..groups + 24 * g].as_chunks_mut::<24>().0.reverse();
        }
        // Equal groups, overlapping lists.
        2 => store.copy_within(other..other + 24, group),
        3 => store.copy_within(other + 16..other + 24, group + 16),
        // Another key.
        4 => set(store, group, random.below(k + 1) as u32),
        5 => set(store, group + 4 + 4 * random.below(3), random.below(n + 1) as u32),
        // An empty list, within the entries or at their end.
        6 => {
            set(store, group + 16, random.below(e + 1) as u32);
            set(store, group + 20, 0);
        }
        7 => set(store, group + 16, random.below(e + 1) as u32),
        8 => set(store, entry, random.below(n + 1) as u32),
        _ => store[entry + 4] = random.next() as u8 & 0x3F,
    }
}

/// Makes some list unfit in one of the seven ways; false where the store has no list for it.
pub fn make_list_unfit(random: &mut Random, store: &mut [u8], kind: usize) -> bool {
    let [n, _, k, g, e] = counts(store);
    if g == 0 || e == 0 {
        return false;
    }
    let group = record_at(store, 3, random.below(g));
    let constraint = get(store, group) as usize;
    let (start, count) = (get(store, group + 16) as usize, get(store, group + 20) as usize);
    // An index damaged before may have groups that name nothing.
    if constraint >= k || count == 0 || start + count > e {
        return false;
    }
    let constraint = record_at(store, 2, constraint);
    let chosen = start + random.below(count);
    let entry = record_at(store, 4, chosen);
    let keys = (0..3).filter(|&place| get(store, group + 4 + 4 * place) != u32::MAX).count();
    match kind {
        0 => leave_entries(random, store, group, start as u32, e as u32),
        1 if count > 1 => set(store, constraint + 8, 1 + random.below(count - 1) as u32),
        1 => {
            let most = get(store, constraint + 8) as usize;
            let longer = most + 1 + random.below(2);
            if start + longer > e {
                return false;
            }
            set(store, group + 20, longer as u32);
        }
        2 => {
            let id = match random.below(4) {
                0 => n as u32,
                1 => u32::MAX,
                2 if count > 1 && chosen > start => get(store, entry - 8),
                _ if count > 1 && chosen > start => 0,
                _ => n as u32 + 1,
            };
            set(store, entry, id);
        }
        3 => {
            let id = get(store, entry) as usize;
            if id >= n {
                return false;
            }
            let label = record_at(store, 0, id);
            store[label] ^= random.pick(&[1, 2, 4, 0x80]);
        }
        4 => store[entry + 5 + random.below(3)] = 1 << random.below(8),
        5 => store[entry + 4] |= 1 << (2 * keys + random.below(8 - 2 * keys)),
        _ if keys > 0 => store[entry + 4] &= !(3 << (2 * random.below(keys))),
        _ => return false,
    }
    true
}

fn leave_entries(random: &mut Random, store: &mut [u8], group: usize, start: u32, e: u32) {
    let (start, count) = match random.below(6) {
        0 => (e + 1, 0),
        1 => (e, 1),
        2 => (start, e - start + 1),
        3 => (u32::MAX, 1),
        4 => (u32::MAX, 0),
        _ => (u32::MAX - e + 1, u32::MAX),
    };
    set(store, group + 16, start);
    set(store, group + 20, count);
}

/// Damages a pattern: its header, a node, an edge or its length.
pub fn damage_pattern(random: &mut Random, pattern: &mut Vec<u8>) {
    let (p, q) = (get(pattern, 4) as usize, get(pattern, 8) as usize);
    let node = 24 + 16 * random.below(p);
    match random.below(12) {
        0 => set(pattern, 4 * random.below(6), random.pick(&EXTREMES)),
        1 => {
            let word = 4 * random.below(6);
            let old = get(pattern, word);
            set(pattern, word, old.wrapping_add(1));
        }
        2 => {
            let length = pattern.len();
            pattern.truncate(random.below(length));
        }
        3 => pattern.push(0),
        4 => pattern[node..node + 2].fill(0),
        5 => pattern[node + 2 + random.below(2)] = random.pick(&[6, 7, 0x80, 0xFF]),
        // Code 0 with a constant, in the first or second place.
        6 => {
            pattern[node + 2] = 0;
            set(pattern, node + 4, random.pick(&[1, u32::MAX, 0x8000_0000]));
        }
        7 => {
            pattern[node + 3] = 0;
            set(pattern, node + 8, random.pick(&[1, u32::MAX, 0x0100_0000]));
        }
        // A second code without a first.
        8 => {
            pattern[node + 2..node + 12].fill(0);
            pattern[node + 3] = 1;
        }
        9 => pattern[node + 12 + random.below(4)] = 1,
        _ if q == 0 => pattern[0] = 2,
        10 => {
            let edge = 24 + 16 * p + 2 * random.below(q);
            let end = random.below(2);
            pattern[edge + end] = random.pick(&[p as u8, 8, 255, pattern[edge + 1 - end]]);
        }
        _ => {
            let (edge, other) = (24 + 16 * p, 24 + 16 * p + 2 * random.below(q));
            pattern.swap(edge, other);
            pattern.swap(edge + 1, other + 1);
        }
    }
}

/// A pattern header that names 0 or 9 nodes and is right otherwise.
pub fn pattern_of_count(p: u32) -> Vec<u8> {
    let mut bytes = Vec::new();
    for word in [1, p, 0, 24, 24 + 16 * p, 24 + 16 * p] {
        bytes.extend(word.to_le_bytes());
    }
    for _ in 0..p {
        bytes.extend([1, 0, 0, 0, 0, 0, 0, 0, 0, 0, 0, 0, 0, 0, 0, 0]);
    }
    bytes
}
