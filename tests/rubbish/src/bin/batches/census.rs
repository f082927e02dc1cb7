//! What the batches met, counted.

use nucleus::batch::Batch;
use nucleus::Status;
use std::collections::BTreeMap;

/// In a run of this many batches everything comes up this often at least.
pub const FIXED: u64 = 40_000;
const REACHED: u64 = 20;
/// And the longest batch has so many events at least.
const LONG: usize = 1_000;

/// What stands at the end of a batch.
const ENDS: [&str; 4] = ["none", "1 byte of a head", "2 bytes of a head", "a cut value"];

const MET: [&str; 11] = [
    "no bytes",
    "a cut field alone",
    "events, none accepted",
    "an event accepted behind a refused one",
    "a stop with events behind it",
    "a value of 65,535 bytes",
    "halted",
    "panicked",
    "idle",
    "events on bad tables",
    "no events on bad tables",
];

/// Of calls, also those that are only tried.
const CALLS: [&str; 4] =
    ["just enough room", "more room than enough", "refused 14", "refused 14, bad tables"];

#[derive(Default)]
pub struct Census {
    pub batches: u64,
    events: u64,
    longest: usize,
    decisions: BTreeMap<u32, u64>,
    ends: BTreeMap<&'static str, u64>,
    met: BTreeMap<&'static str, u64>,
    calls: BTreeMap<&'static str, u64>,
}

fn count<T: Ord>(counts: &mut BTreeMap<T, u64>, what: T, holds: bool) {
    *counts.entry(what).or_default() += u64::from(holds);
}

impl Census {
    /// A call with room for so many numbers where this many were enough.
    pub fn note_call(&mut self, room: usize, enough: usize, bad_tables: bool) {
        let short = room < enough;
        let holds = [room == enough, room > enough, short, short && bad_tables];
        for (what, holds) in CALLS.into_iter().zip(holds) {
            count(&mut self.calls, what, holds);
        }
    }

    /// A batch that was run: its bytes, what it answered, and the status after it unless the tables are bad.
    pub fn note(&mut self, bytes: &[u8], batch: &Batch, status: Option<Status>) {
        let refusals: Vec<u32> = batch.decisions().map(|decision| decision[0]).collect();
        let unread = bytes.len() - batch.read;
        self.batches += 1;
        self.events += refusals.len() as u64;
        self.longest = self.longest.max(refusals.len());
        refusals.iter().for_each(|&refusal| count(&mut self.decisions, refusal, true));
        count(&mut self.ends, ENDS[unread.min(3)], true);
        let first_refused = refusals.iter().position(|&refusal| refusal != 0).unwrap_or(refusals.len());
        let stop = batch.decisions().position(|decision| decision[0] == 0 && matches!(decision[1], 2 | 3));
        let holds = [
            bytes.is_empty(),
            batch.read == 0 && unread > 0,
            batch.read > 0 && batch.accepted() == 0,
            refusals[first_refused..].contains(&0),
            stop.is_some_and(|place| place + 1 < refusals.len()),
            has_longest_value(&bytes[..batch.read]),
            status == Some(Status::Halted),
            status == Some(Status::Panicked),
            status == Some(Status::Idle),
            batch.read > 0 && status.is_none(),
            batch.read == 0 && status.is_none(),
        ];
        for (what, holds) in MET.into_iter().zip(holds) {
            count(&mut self.met, what, holds);
        }
    }

    pub fn print(&self) {
        println!("{} batches with {} events, {} in the longest", self.batches, self.events, self.longest);
        println!("decisions by refusal: {}", listed(&self.decisions));
        println!("unread ends: {}", listed(&self.ends));
        println!("batches with: {}", listed(&self.met));
        println!("calls, with those only tried: {}", listed(&self.calls));
    }

    /// What a fixed run has to meet and did not.
    pub fn missing(&self) -> Vec<String> {
        let mut missing = [
            few("a decision with refusal", 0..=11, &self.decisions),
            few("unread end:", ENDS, &self.ends),
            few("a batch with:", MET, &self.met),
            few("a call:", CALLS, &self.calls),
        ]
        .concat();
        if self.longest < LONG {
            missing.push(format!("a batch of {LONG} events"));
        }
        missing
    }
}

/// The longest field there is: 3 bytes of a head and 65,535 of a value.
fn has_longest_value(bytes: &[u8]) -> bool {
    let fields = nucleus::batch::complete_fields(bytes);
    fields.iter().any(|field| field.len() == 3 + 65_535)
}

fn few<T: Ord + ToString>(
    of: &str,
    wanted: impl IntoIterator<Item = T>,
    counts: &BTreeMap<T, u64>,
) -> Vec<String> {
    let is_rare = |what: &T| counts.get(what).copied().unwrap_or(0) < REACHED;
    wanted.into_iter().filter(is_rare).map(|what| format!("{of} {}", what.to_string())).collect()
}

fn listed<T: ToString>(counts: &BTreeMap<T, u64>) -> String {
    let parts: Vec<String> =
        counts.iter().map(|(what, count)| format!("{} {count}", what.to_string())).collect();
    parts.join(", ")
}
