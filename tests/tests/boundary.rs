//! The library's calls over its C boundary against the second reading: whole outcomes.
//!
//! `make boundary` runs this. Without `BAHRUFAZ_SERVE` nothing is compared, and each test says so; a
//! call that `BAHRUFAZ_CALLS` does not name is left out. A difference prints the call, the test and
//! the seed. To run that one case again: `make boundary TEST=<test> CASE_SEED=<seed>`

use second_reading::boundary::{compare_with, Call, Counts, Serve};
use second_reading::worlds::{self, store_of, Case, PANEL_SIZES};

/// How many cases are at the program at one time.
const BATCH: usize = 256;

/// Whether an emulator runs the library: some ten times slower, so that building and admitting are
/// compared on fewer cases; `make desk` then compares the library for the processor at hand on all.
fn is_emulated() -> bool {
    std::env::var_os("BAHRUFAZ_EMULATED").is_some()
}

/// How many small worlds are built and admitted.
fn builds() -> u64 {
    if is_emulated() {
        1_000
    } else {
        20_000
    }
}

/// The tests whose worlds are large.
const LARGE: [&str; 2] = ["panels", "limits"];

/// Compares a call on the cases of these seeds: how often each number was given.
fn compare(
    call: Call,
    test: &str,
    first: u64,
    count: u64,
    make: impl Fn(u64) -> Option<Case>,
) -> Option<Counts> {
    if is_left_out(test) {
        return None;
    }
    if is_emulated() && LARGE.contains(&test) && matches!(call, Call::Build | Call::Admit) {
        println!("{test}: NOT RUN for {} under an emulator", call.name());
        return None;
    }
    if !call.is_served() {
        println!("{test}: NOT RUN, {} is not served", call.name());
        return None;
    }
    let mut serve = Serve::start().expect("BAHRUFAZ_SERVE");
    let seeds: Vec<u64> = match std::env::var("CASE_SEED") {
        Ok(seed) => vec![seed.parse().expect("CASE_SEED is a number")],
        Err(_) => (first..first + count).collect(),
    };
    let mut counts = Counts::default();
    for seeds in seeds.chunks(BATCH) {
        let (seeds, cases): (Vec<u64>, Vec<Case>) =
            seeds.iter().filter_map(|&seed| Some((seed, make(seed)?))).unzip();
        if let Err(difference) = compare_with(&mut serve, call, &cases, &mut counts) {
            panic!("{}", difference.told(call, test, seeds[difference.place]));
        }
    }
    let used = serve.end();
    println!("{test}: {} {} cases, {used} bytes of stack", call.name(), counts.iter().sum::<u64>());
    assert!(used <= call.stack(), "{} took {used} bytes of stack", call.name());
    Some(counts)
}

/// Tells the counts and asserts that each of these numbers came up, and no other.
fn assert_counts(test: &str, counts: Option<Counts>, numbers: &[u32]) {
    let Some(counts) = counts else { return };
    let told: Vec<String> =
        numbers.iter().map(|&number| format!("{number}: {}", counts[number as usize])).collect();
    println!("{test}: {}", told.join(", "));
    if std::env::var("CASE_SEED").is_err() {
        for number in 0..12 {
            let came = counts[number as usize] > 0;
            assert_eq!(came, numbers.contains(&number), "{test}: number {number}");
        }
    }
}

/// Whether there is nothing to compare with; says so.
fn is_left_out(test: &str) -> bool {
    let left_out = std::env::var_os("BAHRUFAZ_SERVE").is_none();
    if left_out {
        println!("{test}: NOT RUN, BAHRUFAZ_SERVE is not set");
    }
    left_out
}

/// Compares a call on fixed cases; a seed is a place among them.
fn compare_all(call: Call, test: &str, cases: &[Case]) {
    compare(call, test, 0, cases.len() as u64, |place| cases.get(place as usize).cloned());
}

#[test]
fn building() {
    let counts =
        compare(Call::Build, "building", 0, builds(), |seed| Some(worlds::small_build_case(seed)));
    assert_counts("building", counts, &[0, 1, 2, 3, 4, 10, 11]);
}

#[test]
fn admitting() {
    let counts =
        compare(Call::Admit, "admitting", 0, builds(), |seed| Some(worlds::small_store_case(seed)));
    assert_counts("admitting", counts, &[0, 1, 2, 3, 4, 5]);
}

#[test]
fn planning() {
    let counts =
        compare(Call::Plan, "planning", 0, 20_000, |seed| Some(worlds::small_plan_case(seed)));
    assert_counts("planning", counts, &[0, 1, 3, 6, 7, 8, 10]);
}

#[test]
fn listing() {
    let counts =
        compare(Call::List, "listing", 0, 30_000, |seed| Some(worlds::small_list_case(seed)));
    assert_counts("listing", counts, &[0, 1, 3, 5, 6, 7, 8, 9, 10]);
}

/// Lists of each of the seven kinds that are unfit.
#[test]
fn unfit_lists() {
    for kind in 0..worlds::UNFIT_KINDS {
        let counts =
            compare(Call::List, "unfit_lists", 0, 500, |seed| worlds::unfit_case(seed, kind));
        if let (Some(counts), Err(_)) = (counts, std::env::var("CASE_SEED")) {
            println!("unfit_lists, kind {kind}: 5: {}", counts[5]);
            assert!(counts[5] >= 10);
        }
    }
}

/// Any bytes at all, near enough to right ones that some are answered.
#[test]
fn wild_cases() {
    for call in [Call::Plan, Call::List] {
        compare(call, "wild_cases", 0, 2_000, |seed| Some(worlds::wild_case(seed)));
    }
}

/// Feed panels of each size, with patterns of each kind.
#[test]
fn panels() {
    if is_left_out("panels") {
        return;
    }
    let mut patterns = worlds::panel_patterns();
    patterns.extend(worlds::panel_empty_patterns());
    patterns.extend(worlds::panel_refused_patterns().into_iter().map(|(_, pattern)| pattern));
    for size in PANEL_SIZES {
        let draft = worlds::panel_draft(size);
        let store = store_of(&draft);
        let build = Case { store: draft, room: store.len() + 9, noise: 1, ..Case::default() };
        let short = Case { room: store.len() - 1, ..build.clone() };
        let admit = Case { store: store.clone(), ..Case::default() };
        let listed: Vec<Case> = patterns
            .iter()
            .map(|pattern| Case {
                store: store.clone(),
                pattern: pattern.clone(),
                work: 1 << 17,
                room: 1 << 16,
                noise: 2,
            })
            .collect();
        compare_all(Call::Build, "panels", &[build, short]);
        compare_all(Call::Admit, "panels", &[admit]);
        compare_all(Call::Plan, "panels", &listed);
        compare_all(Call::List, "panels", &listed);
    }
}

/// Worlds at the limits: as full as can be, just above, and with far too many keys.
#[test]
fn limits() {
    if is_left_out("limits") {
        return;
    }
    let mut drafts = vec![
        worlds::full_draft(),
        worlds::exact_index_draft(),
        worlds::too_many_entries_draft(4),
        worlds::too_many_entries_draft(3),
        worlds::too_many_groups_draft(),
        worlds::huge_hub_draft(false),
        worlds::huge_hub_draft(true),
        worlds::uneven_hub_draft([500, 500, 1, 60_000]),
        worlds::uneven_hub_draft([20_000, 20_000, 0, 1]),
        worlds::crossed_draft(),
    ];
    drafts.extend(worlds::over_limit_stores());
    let build: Vec<Case> = drafts
        .iter()
        .map(|draft| Case { store: draft.clone(), room: 18_000_000, noise: 3, ..Case::default() })
        .collect();
    compare_all(Call::Build, "limits", &build);
    let admit: Vec<Case> = drafts
        .iter()
        .flat_map(|draft| [store_of(draft), draft.clone()])
        .map(|store| Case { store, ..Case::default() })
        .collect();
    compare_all(Call::Admit, "limits", &admit);
    let mut listed = vec![worlds::clique_case(7), worlds::clique_case(8)];
    listed.extend((0..200).map(worlds::thirty_two_case));
    compare_all(Call::Plan, "limits", &listed);
    compare_all(Call::List, "limits", &listed);
}
