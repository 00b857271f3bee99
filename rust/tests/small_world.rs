//! The small world with its cases, refusals, rooms and stacks.

mod common;

use bahrufaz::{
    Call, Constraint, Draft, Error, Listed, Number, Operator, Pattern, PatternBytes, Refusal,
    Store, StoreBytes, Wrong,
};
use common::{pattern_a, store, world};
use std::thread::Builder;

const NOISE: u32 = 0xA5A5_A5A5;

fn draft() -> StoreBytes<'static> {
    world().bytes().expect("a draft")
}

/// 0 for an answer, else the number of the refusal.
fn number<T>(told: Result<T, Error>) -> u32 {
    match told {
        Ok(_) => 0,
        Err(error) => error.number().map(|number| number as u32).expect("a refusal"),
    }
}

#[test]
fn building_and_admitting() {
    assert_eq!(draft().as_ref().len(), 200);
    assert_eq!(store().as_ref().len(), 432);
    assert_eq!(Store::admit(store().into_bytes()), Ok(store()));
    assert_eq!(number(Store::admit(draft())), 5);
    let mut room = [7; 440];
    assert_eq!(draft().build_into(&mut room), Ok(store()));
    assert_eq!(room[432..], [7; 8]);
    let mut short = [7; 431];
    assert_eq!(number(draft().build_into(&mut short)), 10);
    assert_eq!(short, [7; 431]);
}

#[test]
fn the_plan_of_a() {
    let told = store().plan(&pattern_a()).expect("a plan");
    assert_eq!(pattern_a().as_ref().len(), 94);
    assert_eq!(told.bound, 38);
    let figures: Vec<u32> = told.rows.iter().map(|row| row.figure).collect();
    assert_eq!(figures, [2, 2, 8, 8, 2, 8, 8]);
    let row = &told.rows[5];
    assert!(row.is_edge);
    assert_eq!((row.number, row.fetched, row.constraint, &row.chosen[..]), (1, 2, 2, &[1][..]));
    let mut room = [NOISE; 57];
    assert_eq!(store().plan_into(&pattern_a(), &mut room), Ok(38));
    assert_eq!(room[56], NOISE);
    assert_eq!(number(store().plan_into(&pattern_a(), &mut room[..55])), 10);
    assert_eq!(draft().plan(&pattern_a()), Ok(told));
}

#[test]
fn the_listing_of_a() {
    let listing = store().list(&pattern_a()).expect("a listing");
    assert_eq!(listing.rows().collect::<Vec<_>>(), [[1, 3, 5, 4]]);
    assert_eq!((listing.len(), listing.is_empty()), (1, false));
    let expected = Listed { matches: 1, node_entries: 5, edge_entries: 3, bound: 38 };
    assert_eq!((listing.told, listing.told.entries()), (expected, 8));
}

#[test]
fn a_listing_without_a_match() {
    let pattern = Pattern::plain(&[1], &[]).with(0, Operator::Greater, 1);
    let pattern = pattern.and_then(|pattern| pattern.with(0, Operator::Less, 2));
    let listing = store().list(&pattern.unwrap().bytes().unwrap()).expect("a listing");
    assert_eq!((listing.len(), listing.is_empty(), listing.told.bound), (0, true, 2));
}

/// The story that admitting is for: an index that is not the graph's gives a list that lacks a match.
#[test]
fn a_store_that_is_not_admitted_is_listed_only_by_name() {
    assert_eq!(number(Store::admit(draft())), 5);
    let listing = draft().list_unadmitted(&pattern_a()).expect("a listing");
    assert!(listing.is_empty());
    assert_eq!(store().list_unadmitted(&pattern_a()), store().list(&pattern_a()));
    let (mut work, mut room) = ([NOISE; 76], [NOISE; 4]);
    let told = draft().list_unadmitted_into(&pattern_a(), &mut work, &mut room);
    assert_eq!(told.map(|told| told.matches), Ok(0));
    assert_eq!((work, room), ([0; 76], [NOISE; 4]));
}

#[test]
fn rooms_of_listing() {
    let (store, pattern) = (store(), pattern_a());
    let (mut work, mut room) = ([NOISE; 77], [NOISE; 5]);
    assert_eq!(number(store.list_into(&pattern, &mut work[..75], &mut room)), 9);
    assert_eq!((work, room), ([NOISE; 77], [NOISE; 5]));
    assert_eq!(number(store.list_into(&pattern, &mut work[..76], &mut room[..3])), 10);
    assert_eq!((room, &work[..76], work[76]), ([NOISE; 5], &[0; 76][..], NOISE));
    let told = store.list_into(&pattern, &mut work[..76], &mut room[..4]);
    let expected = Listed { matches: 1, node_entries: 5, edge_entries: 3, bound: 38 };
    assert_eq!(told, Ok(expected));
    assert_eq!(room, [1, 3, 5, 4, NOISE]);
}

#[test]
fn empty_slices_are_lent_as_they_are() {
    let (nothing, no_pattern) = (StoreBytes::from(&[][..]), PatternBytes::from(&[][..]));
    assert_eq!(number(nothing.build()), 1);
    assert_eq!(number(Store::admit(nothing.clone())), 1);
    assert_eq!(number(nothing.plan(&no_pattern)), 1);
    assert_eq!(number(store().plan(&no_pattern)), 6);
    assert_eq!(number(store().list_into(&pattern_a(), &mut [], &mut [])), 9);
    assert_eq!(number(draft().build_into(&mut [])), 10);
}

#[test]
fn bytes_may_stand_anywhere() {
    let mut shifted = vec![0; 1];
    shifted.extend(store().into_bytes().into_vec());
    let store = Store::admit(&shifted[1..]).expect("a store");
    assert_eq!(store.list(&pattern_a()).expect("a listing").len(), 1);
}

#[test]
fn bytes_are_shown_by_their_length() {
    assert_eq!(format!("{:?}", store()), "Store(StoreBytes(432 bytes))");
    assert_eq!(format!("{:?}", pattern_a()), "PatternBytes(94 bytes)");
}

#[test]
fn refusals_have_their_numbers() {
    let mut draft = world();
    draft.nodes[0].0 = 0;
    assert_eq!(number(draft.build()), 2);
    draft = world();
    draft.constraints[0].most = 0;
    assert_eq!(number(draft.build()), 3);
    draft.constraints[0].most = 1;
    assert_eq!(number(draft.build()), 4);
    assert_eq!(number(store().build()), 1);
    let wide = Draft {
        constraints: vec![Constraint::new(&[], 1, 32_768), Constraint::new(&[], 2, 32_769)],
        ..Draft::default()
    };
    let pattern = Pattern::plain(&[1, 2], &[]).bytes().expect("a pattern");
    assert_eq!(number(wide.bytes().expect("a draft").plan(&pattern)), 8);
}

#[test]
fn refusals_name_their_call_and_have_a_sentence() {
    let mut draft = world();
    draft.constraints.remove(2);
    let draft = draft.bytes().expect("a draft");
    let error = draft.plan(&pattern_a()).unwrap_err();
    assert_eq!(error, Error::Refused(Refusal { call: Call::Plan, number: Number::Uncovered }));
    assert_eq!(error.to_string(), "refused with 7: a pattern node or edge is not covered");
    let error = draft.build().expect("a store").list(&pattern_a()).unwrap_err();
    assert_eq!(error, Error::Refused(Refusal { call: Call::List, number: Number::Uncovered }));
    let mut damaged = store().into_bytes().into_vec();
    damaged[368 + 8 * 6 + 5] = 1;
    let damaged = StoreBytes::from(damaged);
    let error = damaged.list_unadmitted(&pattern_a()).unwrap_err();
    assert_eq!(error.to_string(), "refused with 5: a list read is unfit");
    let error = Store::admit(damaged).unwrap_err();
    assert!(error.to_string().starts_with("refused with 5: index differs"), "{error}");
}

#[test]
fn records_that_no_bytes_can_hold_are_told() {
    let mut draft = world();
    draft.constraints[3].key_labels = vec![1, 2, 3, 4];
    assert_eq!(draft.bytes(), Err(Error::Wrong(Wrong::KeyLabels(3))));
    assert_eq!(draft.build().unwrap_err().number(), None);
    let pattern = Pattern::plain(&[1, 2], &[]);
    let error = pattern.clone().with(2, Operator::Equal, 0).unwrap_err();
    assert_eq!(error, Error::Wrong(Wrong::NoNode(2)));
    let thrice = (0..3).try_fold(pattern, |pattern, _| pattern.with(1, Operator::AtLeast, 0));
    let error = thrice.and_then(|pattern| pattern.bytes()).unwrap_err();
    assert_eq!(error, Error::Wrong(Wrong::Conditions(1)));
    assert_eq!(error.to_string(), "pattern node 1 has more than two conditions");
}

#[test]
fn a_room_for_matches_grows() {
    let draft = Draft {
        nodes: (0..200).map(|value| (1, value)).collect(),
        edges: Vec::new(),
        constraints: vec![Constraint::new(&[], 1, 200)],
    };
    let pattern = Pattern::plain(&[1, 1], &[]).bytes().expect("a pattern");
    let listing = draft.build().and_then(|store| store.list(&pattern)).expect("a listing");
    assert_eq!((listing.len(), listing.rows().next()), (200 * 199, Some(&[0, 1][..])));
}

/// Without a stack of their own the calls would end the program here.
#[test]
fn calls_from_a_thread_with_little_stack() {
    let thread = Builder::new().stack_size(32 << 10).spawn(|| {
        let store = Store::admit(store().into_bytes()).expect("admitted");
        store.list(&pattern_a()).expect("a listing").len()
    });
    assert_eq!(thread.expect("a thread").join().expect("an answer"), 1);
}
