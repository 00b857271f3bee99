//! Compares the library with the second reading on fresh seeds, and counts: `make fuzz`.
//!
//! `fuzz [SECONDS]` goes on until it is stopped, or so many seconds. A difference ends it, with the
//! command that runs that one case again.

use second_reading::boundary::{compare_with, Call, Counts, Serve};
use second_reading::worlds::{self, Case, UNFIT_KINDS};
use std::sync::mpsc::{channel, Receiver, RecvTimeoutError, Sender};
use std::time::{Duration, Instant, SystemTime, UNIX_EPOCH};

/// How many cases are at the program at one time.
const BATCH: u64 = 256;

/// How often the count is told.
const TOLD_EVERY: Duration = Duration::from_secs(10);

/// A kind of cases: the call, the test of `make boundary` that has the same cases by their seeds.
type Kind = (Call, &'static str, fn(u64) -> Option<Case>);

const KINDS: [Kind; 7] = [
    (Call::Build, "building", |seed| Some(worlds::small_build_case(seed))),
    (Call::Admit, "admitting", |seed| Some(worlds::small_store_case(seed))),
    (Call::Plan, "planning", |seed| Some(worlds::small_plan_case(seed))),
    (Call::List, "listing", |seed| Some(worlds::small_list_case(seed))),
    (Call::List, "unfit_lists", |seed| worlds::unfit_case(seed, seed as usize % UNFIT_KINDS)),
    (Call::Plan, "wild_cases", |seed| Some(worlds::wild_case(seed))),
    (Call::List, "wild_cases", |seed| Some(worlds::wild_case(seed))),
];

/// What a worker tells: the numbers of a batch, by its kind, or a difference in words.
type News = Result<(usize, Counts), String>;

/// Compares batch after batch, of each kind in turn, until nobody listens.
fn work(first: u64, step: u64, to: &Sender<News>) {
    let mut serve = Serve::start().expect("BAHRUFAZ_SERVE; make fuzz sets it");
    for turn in 0.. {
        let from = first.wrapping_add(step.wrapping_mul(turn));
        for (place, (call, test, make)) in KINDS.into_iter().enumerate() {
            let (seeds, cases): (Vec<u64>, Vec<Case>) = (0..BATCH)
                .map(|at| from.wrapping_add(at))
                .filter_map(|seed| Some((seed, make(seed)?)))
                .unzip();
            let mut counts = Counts::default();
            let news = compare_with(&mut serve, call, &cases, &mut counts)
                .map(|()| (place, counts))
                .map_err(|difference| difference.told(call, test, seeds[difference.place]));
            let differs = news.is_err();
            if to.send(news).is_err() || differs {
                return;
            }
        }
    }
}

/// How many cases were compared so far.
fn tell(totals: &[Counts], began: Instant) {
    let cases: u64 = totals.iter().flatten().sum();
    println!("fuzz: {cases} cases in {} s, no difference", began.elapsed().as_secs());
}

/// How often each number came, for each kind of cases.
fn tell_numbers(totals: &[Counts]) {
    for ((call, test, _), counts) in KINDS.iter().zip(totals) {
        let came = (0..counts.len()).filter(|&number| counts[number] > 0);
        let told: Vec<String> =
            came.map(|number| format!("{number}: {}", counts[number])).collect();
        println!("fuzz: {}, {test}: {}", call.name(), told.join(", "));
    }
}

/// Counts and tells until the time is over, or a worker found a difference.
fn listen(news: &Receiver<News>, limit: Option<Duration>) -> Result<(), String> {
    let (began, mut told) = (Instant::now(), Instant::now());
    let mut totals = [Counts::default(); KINDS.len()];
    while limit.map_or(true, |limit| began.elapsed() < limit) {
        match news.recv_timeout(TOLD_EVERY) {
            Ok(news) => {
                let (kind, counts) = news?;
                (0..counts.len()).for_each(|number| totals[kind][number] += counts[number]);
            }
            Err(RecvTimeoutError::Timeout) => {}
            Err(RecvTimeoutError::Disconnected) => return Err("no worker is left".to_string()),
        }
        if told.elapsed() >= TOLD_EVERY {
            tell(&totals, began);
            told = Instant::now();
        }
    }
    tell(&totals, began);
    tell_numbers(&totals);
    Ok(())
}

fn main() {
    let seconds = std::env::args().nth(1).filter(|word| !word.is_empty());
    let limit = seconds.map(|word| Duration::from_secs(word.parse().expect("SECONDS is a number")));
    let now = SystemTime::now().duration_since(UNIX_EPOCH).expect("a clock").as_nanos() as u64;
    let workers = std::thread::available_parallelism().map_or(1, |count| count.get() as u64);
    println!("fuzz: seeds from {now} on, {workers} at a time; stop it when you like");
    let (to, news) = channel();
    for worker in 0..workers {
        let to = to.clone();
        std::thread::spawn(move || work(now.wrapping_add(worker * BATCH), workers * BATCH, &to));
    }
    drop(to);
    if let Err(why) = listen(&news, limit) {
        println!("fuzz: {why}");
        std::process::exit(1);
    }
}
