//! The library's calls over its C boundary: the program `boundary/serve.c`, linked with the library,
//! makes them and gives whole outcomes back. Its first comment has the form of cases and outcomes.

use crate::reading::{self, Built, Listed, Planned};
use crate::worlds::Case;
use std::io::{self, BufReader, Read, Write};
use std::process::{Child, ChildStdout, Command, Stdio};
use std::time::Duration;

/// A call, by its number in a case.
#[derive(Debug, Clone, Copy, PartialEq, Eq)]
pub enum Call {
    Build = 1,
    Admit = 2,
    Plan = 3,
    List = 4,
}

impl Call {
    pub fn name(self) -> &'static str {
        match self {
            Call::Build => "build",
            Call::Admit => "admit",
            Call::Plan => "plan",
            Call::List => "list",
        }
    }

    /// Whether `BAHRUFAZ_CALLS` names this call, and so `BAHRUFAZ_SERVE` has it.
    pub fn is_served(self) -> bool {
        let calls = std::env::var("BAHRUFAZ_CALLS").unwrap_or_default();
        calls.split_whitespace().any(|call| call == self.name())
    }

    /// The most bytes of stack that the call may take.
    pub fn stack(self) -> usize {
        match self {
            Call::Build | Call::Admit => 4 << 20,
            Call::Plan | Call::List => 64 << 10,
        }
    }
}

/// A whole outcome: the number, the results, and the rooms as they are left, in bytes.
#[derive(Debug, PartialEq, Eq)]
pub struct Outcome {
    pub number: u32,
    pub results: [u32; 8],
    pub work: Vec<u8>,
    pub room: Vec<u8>,
}

/// The working room and the result room that a call is lent, in bytes.
fn rooms(call: Call, case: &Case) -> (Vec<u8>, Vec<u8>) {
    match call {
        Call::Build => (Vec::new(), case.room_bytes()),
        Call::Admit => (Vec::new(), Vec::new()),
        Call::Plan => (Vec::new(), to_bytes(&case.room_words())),
        Call::List => (to_bytes(&case.work_words()), to_bytes(&case.room_words())),
    }
}

fn to_bytes(words: &[u32]) -> Vec<u8> {
    words.iter().flat_map(|word| word.to_le_bytes()).collect()
}

/// The outcome of a call by the second reading.
pub fn expected(call: Call, case: &Case) -> Outcome {
    let (mut work, mut room) = (Vec::new(), Vec::new());
    let (number, results) = match call {
        Call::Build => {
            room = case.room_bytes();
            let Built { number, length } = reading::build(&case.store, &mut room);
            (number, [length, 0, 0, 0, 0, 0, 0, 0])
        }
        Call::Admit => (reading::admit(&case.store), [0; 8]),
        Call::Plan => {
            let mut words = case.room_words();
            let Planned { number, bound } = reading::plan(&case.store, &case.pattern, &mut words);
            room = to_bytes(&words);
            (number, [bound, 0, 0, 0, 0, 0, 0, 0])
        }
        Call::List => {
            let (mut before, mut words) = (case.work_words(), case.room_words());
            let listed = reading::list(&case.store, &case.pattern, &mut before, &mut words);
            (work, room) = (to_bytes(&before), to_bytes(&words));
            (listed.number, list_results(&listed))
        }
    };
    Outcome { number, results, work, room }
}

/// Listing's results; the upper half of the matches stands last.
fn list_results(listed: &Listed) -> [u32; 8] {
    let &Listed { number: _, matches, node_entries, edge_entries, bound } = listed;
    [matches as u32, node_entries, edge_entries, bound, 0, 0, 0, (matches >> 32) as u32]
}

/// How often each number was given.
pub type Counts = [u64; 12];

/// The first case whose outcomes differ: its place, the library's (none where its program ended
/// there) and the second reading's.
#[derive(Debug)]
pub struct Difference {
    pub place: usize,
    pub ours: Option<Outcome>,
    pub theirs: Outcome,
}

impl Difference {
    /// What differs, where it begins, and how to run that one case again.
    pub fn told(&self, call: Call, test: &str, seed: u64) -> String {
        let mut lines = vec![format!("{} differs at seed {seed}", call.name())];
        match &self.ours {
            None => lines.push("  the library's program ended at this case".to_string()),
            Some(ours) => lines.extend(self.parts(ours)),
        }
        lines.push(format!("again: make boundary TEST={test} CASE_SEED={seed}"));
        lines.join("\n")
    }

    fn parts(&self, ours: &Outcome) -> Vec<String> {
        let theirs = &self.theirs;
        let mut lines = vec![
            format!("  the library: {}, {:?}", ours.number, ours.results),
            format!("  the reading: {}, {:?}", theirs.number, theirs.results),
        ];
        let rooms = [("working", &ours.work, &theirs.work), ("result", &ours.room, &theirs.room)];
        for (name, one, other) in rooms {
            if let Some(at) = one.iter().zip(other).position(|(one, other)| one != other) {
                lines.push(format!("  {name} room: byte {at} is {}, not {}", one[at], other[at]));
            }
        }
        lines
    }
}

/// Makes a call on these cases and compares whole outcomes; counts the numbers.
pub fn compare_with(
    serve: &mut Serve,
    call: Call,
    cases: &[Case],
    counts: &mut Counts,
) -> Result<(), Difference> {
    let mut ours = serve.make(call, cases, 1).into_iter();
    for (place, case) in cases.iter().enumerate() {
        let theirs = expected(call, case);
        let ours = ours.next().map(|(outcome, _)| outcome);
        if ours.as_ref() != Some(&theirs) {
            return Err(Difference { place, ours, theirs });
        }
        counts[theirs.number as usize] += 1;
    }
    Ok(())
}

/// The program that makes the calls, while it runs.
pub struct Serve {
    child: Child,
    outcomes: BufReader<ChildStdout>,
}

impl Serve {
    /// Starts what `BAHRUFAZ_SERVE` names, if it is set.
    pub fn start() -> Option<Serve> {
        let path = std::env::var_os("BAHRUFAZ_SERVE")?;
        let mut child = Command::new(&path)
            .stdin(Stdio::piped())
            .stdout(Stdio::piped())
            .spawn()
            .unwrap_or_else(|error| panic!("{} does not start: {error}", path.display()));
        let outcomes = BufReader::new(child.stdout.take().expect("a pipe"));
        Some(Serve { child, outcomes })
    }

    /// Makes a call on each case so many times: outcomes and shortest times. If the program ends
    /// early, they are fewer than the cases, and the first without one is where it ended.
    pub fn make(&mut self, call: Call, cases: &[Case], times: u32) -> Vec<(Outcome, Duration)> {
        let mut input = self.child.stdin.take().expect("a pipe");
        let outcomes = &mut self.outcomes;
        let (input, told) = std::thread::scope(|scope| {
            let writer = scope.spawn(move || {
                // Where this fails, reading ends early and says so.
                _ = cases.iter().try_for_each(|case| write_case(&mut input, call, case, times));
                input
            });
            let told = cases
                .iter()
                .map_while(|case| read_outcome(outcomes, call, case).ok())
                .collect::<Vec<_>>();
            if told.len() < cases.len() {
                // Nothing reads what the writer has left: the program is at its end.
                _ = self.child.wait();
            }
            (writer.join().expect("a writer"), told)
        });
        self.child.stdin = Some(input);
        told
    }

    /// Ends the program: how many bytes of stack its calls used at most.
    pub fn end(mut self) -> usize {
        drop(self.child.stdin.take());
        let mut used = [0; 4];
        self.outcomes.read_exact(&mut used).expect("the bytes of stack used");
        assert!(self.child.wait().expect("an end").success());
        u32::from_le_bytes(used) as usize
    }
}

fn write_case(to: &mut impl Write, call: Call, case: &Case, times: u32) -> io::Result<()> {
    let (work, room) = rooms(call, case);
    let parts = [&case.store, &case.pattern, &work, &room];
    let mut bytes = to_bytes(&[call as u32, times]);
    bytes.extend(parts.iter().flat_map(|part| (part.len() as u32).to_le_bytes()));
    parts.iter().for_each(|part| bytes.extend_from_slice(part));
    to.write_all(&bytes)
}

fn read_outcome(from: &mut impl Read, call: Call, case: &Case) -> io::Result<(Outcome, Duration)> {
    let mut words = [0; 11];
    for word in &mut words {
        let mut bytes = [0; 4];
        from.read_exact(&mut bytes)?;
        *word = u32::from_le_bytes(bytes);
    }
    let (mut work, mut room) = rooms(call, case);
    from.read_exact(&mut work)?;
    from.read_exact(&mut room)?;
    let results = words[1..9].try_into().expect("8 results");
    let time = Duration::from_nanos(u64::from(words[10]) << 32 | u64::from(words[9]));
    Ok((Outcome { number: words[0], results, work, room }, time))
}

#[cfg(test)]
mod tests {
    use super::*;

    /// No room of a test holds so many rows, so the comparison alone would not tell.
    #[test]
    fn both_halves_of_the_matches() {
        let matches = 7 << 32 | 5;
        let listed = Listed { number: 0, matches, node_entries: 1, edge_entries: 2, bound: 3 };
        assert_eq!(list_results(&listed), [5, 1, 2, 3, 0, 0, 0, 7]);
    }
}
