//! The small world with its listing, case by case.

use second_reading::reading::{admit, build, list, plan, Built, Listed, Planned};
use second_reading::worlds::{pattern_of_count, ConstraintRule, PatternDraft, World};

const LOCALE: u16 = 1;
const FORMAT: u16 = 2;
const SCREEN: u16 = 3;
const FIELD: u16 = 4;
const NOISE: u32 = 0xA5A5_A5A5;

fn world() -> World {
    let mut world = World::default();
    let nodes = [
        (LOCALE, 1),
        (LOCALE, 2),
        (FORMAT, 46),
        (FORMAT, 44),
        (SCREEN, 10),
        (FIELD, 100),
        (FIELD, 101),
    ];
    nodes.iter().for_each(|&(label, value)| _ = world.add_node(label, value));
    world.edges = vec![(0, 2), (1, 3), (4, 5), (4, 6), (5, 3), (6, 2)];
    world.constraints = vec![
        ConstraintRule::new(&[], LOCALE, 2),
        ConstraintRule::new(&[LOCALE], FORMAT, 1),
        ConstraintRule::new(&[FORMAT], FIELD, 4),
        ConstraintRule::new(&[FIELD], SCREEN, 1),
    ];
    world
}

fn built(world: &World) -> Vec<u8> {
    let mut room = vec![0; 100_000];
    let built = build(&world.draft(), &mut room);
    assert_eq!(built.number, 0);
    room.truncate(built.length as usize);
    room
}

fn word(bytes: &[u8], place: usize) -> u32 {
    u32::from_le_bytes(bytes[4 * place..4 * place + 4].try_into().unwrap())
}

fn pattern_a() -> PatternDraft {
    let labels = [LOCALE, FORMAT, FIELD, SCREEN];
    PatternDraft::plain(&labels, &[(0, 1), (2, 1), (3, 2)]).with(0, 1, 2)
}

fn planned(world: &World, pattern: &PatternDraft) -> (Planned, Vec<u32>) {
    let mut room = vec![NOISE; 8 * 64];
    let planned = plan(&world.draft(), &pattern.bytes(), &mut room);
    (planned, room)
}

/// Lists with generous rooms and gives the rows.
fn listed(store: &[u8], pattern: &PatternDraft) -> (Listed, Vec<u32>) {
    let (mut work, mut room) = (vec![NOISE; 200_000], vec![NOISE; 1_024]);
    let listed = list(store, &pattern.bytes(), &mut work, &mut room);
    room.truncate(listed.matches as usize * pattern.nodes.len());
    (listed, room)
}

fn answered(matches: u64, node_entries: u32, edge_entries: u32, bound: u32) -> Listed {
    Listed { number: 0, matches, node_entries, edge_entries, bound }
}

/// What a program is run on in the gate.
fn data(file: &str) -> Vec<u8> {
    let path = format!("{}/../crates/{file}", env!("CARGO_MANIFEST_DIR"));
    std::fs::read(&path).unwrap_or_else(|error| panic!("{path}: {error}"))
}

#[test]
fn files_of_the_programs() {
    assert_eq!(data("run_panel/data/store.bin"), built(&world()));
    for program in ["run_cases", "run_tour"] {
        assert_eq!(data(&format!("{program}/data/draft.bin")), world().draft());
    }
    for program in ["run_panel", "run_cases", "run_tour"] {
        assert_eq!(data(&format!("{program}/data/pattern.bin")), pattern_a().bytes());
    }
}

#[test]
fn lengths_counts_and_offsets() {
    let draft = world().draft();
    assert_eq!(draft.len(), 200);
    let store = built(&world());
    assert_eq!(store.len(), 432);
    let words: Vec<u32> = (0..12).map(|place| word(&store, place)).collect();
    assert_eq!(words, [1, 7, 6, 4, 7, 8, 48, 104, 152, 200, 368, 432]);
    assert_eq!(admit(&store), 0);
    assert_eq!(admit(&draft), 5);
}

#[test]
fn groups_and_entries() {
    let store = built(&world());
    let none = u32::MAX;
    let groups = [
        [0, none, none, none, 0, 2],
        [1, 0, none, none, 2, 1],
        [1, 1, none, none, 3, 1],
        [2, 2, none, none, 4, 1],
        [2, 3, none, none, 5, 1],
        [3, 5, none, none, 6, 1],
        [3, 6, none, none, 7, 1],
    ];
    for (place, group) in groups.iter().enumerate() {
        let told: Vec<u32> = (0..6).map(|part| word(&store, 50 + 6 * place + part)).collect();
        assert_eq!(told, group);
    }
    // Node and directions: bit 0 from the key's node to the entry, bit 1 back.
    let entries = [(0, 0), (1, 0), (2, 1), (3, 1), (6, 2), (5, 2), (4, 2), (4, 2)];
    for (place, &(id, directions)) in entries.iter().enumerate() {
        assert_eq!((word(&store, 92 + 2 * place), word(&store, 93 + 2 * place)), (id, directions));
    }
}

#[test]
fn an_empty_store_has_48_bytes() {
    let draft = World::default().draft();
    assert_eq!(draft.len(), 48);
    assert_eq!(built(&World::default()), draft);
    assert_eq!(admit(&draft), 0);
    assert_eq!(admit(&draft[..47]), 1);
    assert_eq!(admit(&[]), 1);
}

#[test]
fn rooms_of_building() {
    let (draft, store) = (world().draft(), built(&world()));
    let mut short = vec![7; 431];
    assert_eq!(build(&draft, &mut short), Built { number: 10, length: 0 });
    assert!(short.iter().all(|&byte| byte == 7));
    let mut long = vec![7; 440];
    assert_eq!(build(&draft, &mut long), Built { number: 0, length: 432 });
    assert_eq!(long[..432], store);
    assert!(long[432..].iter().all(|&byte| byte == 7));
    assert_eq!(build(&store, &mut long), Built { number: 1, length: 0 });
}

#[test]
fn plan_of_a() {
    let pattern = pattern_a();
    assert_eq!(pattern.bytes().len(), 94);
    let (planned, room) = planned(&world(), &pattern);
    assert_eq!(planned, Planned { number: 0, bound: 38 });
    let rows = [
        [0, 0, 0, 0, 255, 255, 255, 2],
        [0, 1, 1, 1, 0, 255, 255, 2],
        [0, 2, 2, 2, 1, 255, 255, 8],
        [0, 3, 3, 3, 2, 255, 255, 8],
        [1, 0, 1, 1, 0, 255, 255, 2],
        [1, 1, 2, 2, 1, 255, 255, 8],
        [1, 2, 3, 3, 2, 255, 255, 8],
    ];
    assert_eq!(room[..56], rows.concat());
    assert!(room[56..].iter().all(|&word| word == NOISE));
    let mut short = vec![NOISE; 55];
    let refused = plan(&world().draft(), &pattern.bytes(), &mut short);
    assert_eq!(refused, Planned { number: 10, bound: 0 });
    assert!(short.iter().all(|&word| word == NOISE));
}

#[test]
fn listing_of_a() {
    let (listed, rows) = listed(&built(&world()), &pattern_a());
    assert_eq!(listed, answered(1, 5, 3, 38));
    assert_eq!(rows, [1, 3, 5, 4]);
}

#[test]
fn rooms_of_listing_a() {
    let (store, pattern) = (built(&world()), pattern_a().bytes());
    for (work_words, room_words, number) in [(75, 4, 9), (76, 3, 10), (76, 4, 0), (80, 9, 0)] {
        let (mut work, mut room) = (vec![NOISE; work_words], vec![NOISE; room_words]);
        let listed = list(&store, &pattern, &mut work, &mut room);
        let expected = match number {
            0 => answered(1, 5, 3, 38),
            number => Listed { number, ..Listed::default() },
        };
        assert_eq!(listed, expected);
        let cleared = if number == 9 { 0 } else { 76 };
        assert!(work[..cleared].iter().all(|&word| word == 0));
        assert!(work[cleared..].iter().all(|&word| word == NOISE));
        let written = if number == 0 { 4 } else { 0 };
        assert_eq!(room[..written], [1, 3, 5, 4][..written]);
        assert!(room[written..].iter().all(|&word| word == NOISE));
    }
}

#[test]
fn a_with_its_first_edge_turned() {
    let mut pattern = pattern_a();
    pattern.edges[0] = (1, 0);
    assert_eq!(listed(&built(&world()), &pattern), (answered(0, 5, 3, 38), vec![]));
}

#[test]
fn two_fields() {
    let labels = [LOCALE, FORMAT, FIELD, FIELD];
    let pattern = PatternDraft::plain(&labels, &[(0, 1), (2, 1), (3, 1)]);
    assert_eq!(listed(&built(&world()), &pattern), (answered(0, 8, 6, 38), vec![]));
}

#[test]
fn one_locale() {
    let store = built(&world());
    let pattern = PatternDraft::plain(&[LOCALE], &[]);
    assert_eq!(listed(&store, &pattern), (answered(2, 2, 0, 2), vec![0, 1]));
    let clashing = pattern.with(0, 3, 1).with(0, 2, 2);
    assert_eq!(listed(&store, &clashing), (answered(0, 2, 0, 2), vec![]));
}

#[test]
fn a_without_the_third_constraint() {
    let mut world = world();
    world.constraints.remove(2);
    assert_eq!(planned(&world, &pattern_a()).0, Planned { number: 7, bound: 0 });
    assert_eq!(listed(&built(&world), &pattern_a()).0.number, 7);
}

#[test]
fn the_bound_at_its_limit() {
    let two = |first: u32, second: u32| {
        let mut world = world();
        world.constraints =
            vec![ConstraintRule::new(&[], LOCALE, first), ConstraintRule::new(&[], FORMAT, second)];
        world
    };
    let pattern = PatternDraft::plain(&[LOCALE, FORMAT], &[]);
    let (most, over) = (two(32_768, 32_768), two(32_768, 32_769));
    assert_eq!(planned(&most, &pattern).0, Planned { number: 0, bound: 65_536 });
    assert_eq!(planned(&over, &pattern).0, Planned { number: 8, bound: 0 });
    assert_eq!(listed(&built(&most), &pattern).0, answered(4, 4, 0, 65_536));
    assert_eq!(listed(&built(&over), &pattern).0.number, 8);
}

#[test]
fn chosen_nodes_must_neighbour_the_fetched_end() {
    let mut world = world();
    world.constraints = vec![
        ConstraintRule::new(&[], LOCALE, 1),
        ConstraintRule::new(&[], FORMAT, 1),
        ConstraintRule::new(&[], FIELD, 3),
        ConstraintRule::new(&[LOCALE, FORMAT], FIELD, 2),
    ];
    let pattern = PatternDraft::plain(&[LOCALE, FORMAT, FIELD], &[(2, 1)]);
    assert_eq!(planned(&world, &pattern).0, Planned { number: 7, bound: 0 });
}

#[test]
fn the_least_and_the_largest_most() {
    for (most, expected) in [(0, 3), (65_535, 0), (65_536, 3)] {
        let mut world = world();
        world.constraints[2].most = most;
        let draft = world.draft();
        assert_eq!(build(&draft, &mut [0; 432]).number, expected);
        assert_eq!(admit(&draft), if expected == 0 { 5 } else { expected });
        let pattern = PatternDraft::plain(&[LOCALE], &[]);
        assert_eq!(planned(&world, &pattern).0.number, expected);
        let listed = list(&draft, &pattern.bytes(), &mut [0; 4], &mut [0; 4]);
        assert_eq!(listed.number, expected);
    }
}

#[test]
fn patterns_of_no_and_of_nine_nodes() {
    let store = built(&world());
    for p in [0, 9] {
        let pattern = pattern_of_count(p);
        assert_eq!(plan(&store, &pattern, &mut [0; 512]).number, 6);
        assert_eq!(list(&store, &pattern, &mut [0; 512], &mut [0; 512]).number, 6);
    }
    assert_eq!(plan(&store, &pattern_of_count(8), &mut [0; 512]).number, 0);
}
