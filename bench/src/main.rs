//! Times of the library's calls and of the second reading on feed panels, in one run: `make bench`.
//!
//! Only the call itself is timed, on both sides, and the shortest of several times counts. Times are
//! in microseconds; the ratio is the library's time over the reading's; growth is the library's time
//! over its time at the size before.

use second_reading::boundary::{expected, Call, Serve};
use second_reading::reading;
use second_reading::worlds::{self, store_of, Case, PANEL_SIZES};
use std::time::{Duration, Instant};

fn main() {
    let Some(mut serve) = Serve::start() else {
        println!("bench: NOT RUN, BAHRUFAZ_SERVE is not set; make bench sets it");
        return;
    };
    if std::env::consts::ARCH != "x86_64" {
        println!("The archive is for x86-64; here its LLVM module is compiled for this processor.");
    }
    let calls = [Call::Build, Call::Admit, Call::Plan, Call::List];
    for call in calls.into_iter().filter(|call| call.is_served()) {
        let times = match call {
            Call::Build | Call::Admit => 5,
            Call::Plan | Call::List => 50,
        };
        println!(
            "\n{:<6} {:>7} {:>8} {:>12} {:>12} {:>7} {:>7}",
            call.name(),
            "nodes",
            "pattern",
            "library",
            "reading",
            "ratio",
            "growth"
        );
        let mut before: Vec<Duration> = Vec::new();
        for size in PANEL_SIZES {
            let cases = cases(call, size);
            let mut ours = Vec::new();
            for (place, case) in cases.iter().enumerate() {
                let (time, theirs) =
                    (ours_on(&mut serve, call, case, times), theirs_on(call, case, times));
                let growth = before.get(place).map_or(String::new(), |&one| quotient(time, one));
                let pattern = case.pattern.get(4).map_or(String::new(), |p| format!("{p} nodes"));
                println!(
                    "{:<6} {size:>7} {pattern:>8} {:>12.1} {:>12.1} {:>7} {growth:>7}",
                    call.name(),
                    micros(time),
                    micros(theirs),
                    quotient(time, theirs),
                );
                ours.push(time);
            }
            before = ours;
        }
        if call == Call::Plan {
            let case = worlds::widest_plan_case();
            let (time, theirs) =
                (ours_on(&mut serve, call, &case, times), theirs_on(call, &case, times));
            println!(
                "8 nodes, 20 edges, 32 constraints: {:.1} {:.1}, ratio {}",
                micros(time),
                micros(theirs),
                quotient(time, theirs)
            );
        }
    }
    serve.end();
}

/// What a call is lent on a panel of this size: planning and listing with each of six patterns.
fn cases(call: Call, size: usize) -> Vec<Case> {
    let draft = worlds::panel_draft(size);
    let store = store_of(&draft);
    match call {
        Call::Build => vec![Case { room: store.len(), store: draft, ..Case::default() }],
        Call::Admit => vec![Case { store, ..Case::default() }],
        Call::Plan | Call::List => worlds::panel_patterns()
            .into_iter()
            .map(|pattern| Case {
                store: store.clone(),
                pattern,
                work: 1 << 17,
                room: 1 << 16,
                noise: 1,
            })
            .collect(),
    }
}

/// The library's time; its outcome must be the reading's.
fn ours_on(serve: &mut Serve, call: Call, case: &Case, times: u32) -> Duration {
    let made = serve.make(call, std::slice::from_ref(case), times);
    let (outcome, time) = made.first().expect("an outcome");
    assert!(*outcome == expected(call, case), "{} differs: see make boundary", call.name());
    *time
}

fn theirs_on(call: Call, case: &Case, times: u32) -> Duration {
    let (mut bytes, mut work, mut room) =
        (vec![0; case.room], case.work_words(), case.room_words());
    let once = |_| {
        let from = Instant::now();
        let number = match call {
            Call::Build => reading::build(&case.store, &mut bytes).number,
            Call::Admit => reading::admit(&case.store),
            Call::Plan => reading::plan(&case.store, &case.pattern, &mut room).number,
            Call::List => reading::list(&case.store, &case.pattern, &mut work, &mut room).number,
        };
        let time = from.elapsed();
        assert_eq!(number, 0);
        time
    };
    (0..times).map(once).min().expect("at least one time")
}

fn micros(time: Duration) -> f64 {
    time.as_secs_f64() * 1e6
}

fn quotient(one: Duration, other: Duration) -> String {
    format!("{:.2}", one.as_secs_f64() / other.as_secs_f64())
}
