//! Panels, cliques and worlds at the limits.

use second_reading::reading::{self, number, Built, Listed};
use second_reading::worlds::{self, store_of, Case, PANEL_SIZES};

fn list(case: &Case) -> (Listed, Vec<u32>) {
    let (mut work, mut room) = (case.work_words(), case.room_words());
    let listed = reading::list(&case.store, &case.pattern, &mut work, &mut room);
    room.truncate(listed.matches as usize * case.pattern[4] as usize);
    (listed, room)
}

#[test]
fn panels_answer_their_patterns_with_the_same_bound() {
    let patterns = worlds::panel_patterns();
    assert_eq!(patterns.len(), 6);
    let mut bounds: Vec<Vec<u32>> = Vec::new();
    for size in PANEL_SIZES {
        let store = store_of(&worlds::panel_draft(size));
        assert_eq!(reading::admit(&store), number::ANSWERED);
        let mut told = Vec::new();
        for pattern in &patterns {
            let room = 1 << 16;
            let case = Case {
                store: store.clone(),
                pattern: pattern.clone(),
                work: 1 << 17,
                room,
                noise: 1,
            };
            let (listed, rows) = list(&case);
            assert_eq!(listed.number, number::ANSWERED);
            assert!(listed.matches > 0);
            assert!(listed.node_entries + listed.edge_entries <= listed.bound);
            let p = pattern[4] as usize;
            let ascend = |two: &[&[u32]]| two[0] < two[1];
            assert!(rows.chunks(p).collect::<Vec<_>>().windows(2).all(ascend));
            println!("panel {size}, {p} nodes: {listed:?}");
            told.push(listed.bound);
        }
        bounds.push(told);
        for pattern in worlds::panel_empty_patterns() {
            let case = Case { store: store.clone(), pattern, work: 1 << 17, room: 0, noise: 2 };
            let listed = list(&case).0;
            assert_eq!((listed.number, listed.matches), (number::ANSWERED, 0));
        }
        for (expected, pattern) in worlds::panel_refused_patterns() {
            assert_eq!(reading::plan(&store, &pattern, &mut [0; 512]).number, expected);
        }
    }
    assert!(bounds.iter().all(|told| *told == bounds[0]));
}

#[test]
fn cliques_have_all_their_placements() {
    for (nodes, matches) in [(7, 0), (8, 40_320)] {
        let case = worlds::clique_case(nodes);
        let (listed, rows) = list(&case);
        assert_eq!((listed.number, listed.matches), (number::ANSWERED, matches));
        assert!(rows.chunks(8).collect::<Vec<_>>().windows(2).all(|two| two[0] < two[1]));
        let short = Case { room: (8 * matches as usize).saturating_sub(1), ..case };
        assert_eq!(
            list(&short).0.number,
            if matches > 0 { number::ROOM } else { number::ANSWERED }
        );
    }
}

#[test]
fn a_full_world_is_built_and_admitted() {
    let draft = worlds::full_draft();
    let store = store_of(&draft);
    let counts: Vec<u32> = (1..4)
        .map(|word| u32::from_le_bytes(store[4 * word..4 * word + 4].try_into().unwrap()))
        .collect();
    assert_eq!(counts, [65_535, 262_144, 32]);
    assert_eq!(reading::admit(&store), number::ANSWERED);
}

#[test]
fn an_index_at_its_limits_is_built() {
    let store = store_of(&worlds::exact_index_draft());
    let counts: Vec<u32> = (4..6)
        .map(|word| u32::from_le_bytes(store[4 * word..4 * word + 4].try_into().unwrap()))
        .collect();
    assert_eq!(counts, [262_144, 1_048_576]);
    assert_eq!(reading::admit(&store), number::ANSWERED);
}

#[test]
fn an_index_beyond_its_limits_is_refused() {
    let drafts = [
        (worlds::too_many_entries_draft(4), number::INDEX),
        (worlds::too_many_entries_draft(3), number::LONG_LIST),
        (worlds::too_many_groups_draft(), number::INDEX),
        (worlds::huge_hub_draft(false), number::INDEX),
        (worlds::huge_hub_draft(true), number::LONG_LIST),
        (worlds::hub_draft([1_000; 3], 2, 2), number::INDEX),
        (worlds::hub_draft([1_000; 3], 3, 2), number::LONG_LIST),
    ];
    for (draft, expected) in drafts {
        assert_eq!(reading::build(&draft, &mut []), Built { number: expected, length: 0 });
        let admitted = if expected == number::INDEX { number::UNFIT } else { expected };
        assert_eq!(reading::admit(&draft), admitted);
    }
}

#[test]
fn counts_just_above_their_limits_are_refused() {
    let pattern = &worlds::panel_patterns()[0];
    for store in worlds::over_limit_stores() {
        assert_eq!(reading::build(&store, &mut []).number, number::HEADER);
        assert_eq!(reading::admit(&store), number::HEADER);
        assert_eq!(reading::plan(&store, pattern, &mut []).number, number::HEADER);
        assert_eq!(reading::list(&store, pattern, &mut [], &mut []).number, number::HEADER);
    }
}
