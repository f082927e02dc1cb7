//! What was lent and what was answered, counted.

use crate::judge::Ground;
use crate::kinds::Kind;
use nucleus::breaks::RULES;
use nucleus::{Node, Rule, Status};
use std::collections::BTreeMap;

/// Of one kind.
#[derive(Clone, Copy, Debug, Default)]
pub struct Counted {
    pub tables: u64,
    /// Meet the table rules.
    pub stand: u64,
    pub failed: u64,
}

/// Bits of whole tables, flipped one after the other.
#[derive(Clone, Copy, Debug, Default)]
pub struct Bits {
    /// Of words that count: refused with 11.
    pub found: u64,
    /// Of words that count: other tables.
    pub other: u64,
    /// Of words that say nothing.
    pub silent: u64,
}

#[derive(Default)]
pub struct Tally {
    pub bits: Bits,
    pub grounds: BTreeMap<Ground, u64>,
    /// How full those are that meet the rules.
    pub filled: BTreeMap<&'static str, u64>,
    pub steps: BTreeMap<u8, u64>,
    pub dumps: BTreeMap<u8, u64>,
    pub loads: BTreeMap<u8, u64>,
    pub picks: BTreeMap<u8, u64>,
}

/// In a run of this many tables each ground, filling and refusal comes up this often at least.
pub const FIXED: u64 = 102_000;
const REACHED: u64 = 20;

const FILLED: [&str; 8] = [
    "20 threads",
    "20 ordinary messages",
    "40 messages",
    "48 held words",
    "running",
    "idle",
    "halted",
    "panicked",
];

pub fn count<T: Ord>(counts: &mut BTreeMap<T, u64>, what: T) {
    *counts.entry(what).or_default() += 1;
}

impl Tally {
    pub fn note(&mut self, verdict: &Result<Node, Ground>) {
        match verdict {
            Err(ground) => count(&mut self.grounds, *ground),
            Ok(node) => self.note_node(node),
        }
    }

    fn note_node(&mut self, node: &Node) {
        let messages: usize = node.threads().values().map(|thread| thread.inbox.len()).sum();
        let facts = [
            node.threads().len() == 20,
            node.blocks().free() == 0,
            messages == 40,
            node.held().len() == 48,
            node.status() == Status::Running,
            node.status() == Status::Idle,
            node.status() == Status::Halted,
            node.status() == Status::Panicked,
        ];
        for (what, holds) in FILLED.into_iter().zip(facts) {
            *self.filled.entry(what).or_default() += u64::from(holds);
        }
    }

    pub fn print(&self) {
        let Bits { found, other, silent } = self.bits;
        println!(
            "bits of words that count, each flipped: {}, of them {found} found and {other} other tables",
            found + other
        );
        println!("bits of words that say nothing, each flipped: {silent}");
        println!("no tables, by ground: {}", listed(&self.grounds));
        println!("tables that stand: {}", listed(&self.filled));
        println!("answers to steps: {}", listed(&self.steps));
        println!("answers to dumps: {}", listed(&self.dumps));
        println!("answers to loads: {}", listed(&self.loads));
        println!("answers to picks: {}", listed(&self.picks));
    }

    /// What a fixed run has to meet and did not.
    pub fn missing(&self) -> Vec<String> {
        let alone = RULES.into_iter().filter(|&rule| rule != Rule::Status).map(Ground::Alone);
        let grounds = alone.chain([Ground::Limits, Ground::Count, Ground::Word, Ground::Order, Ground::Several]);
        let missing = [
            few("broken:", grounds, &self.grounds),
            few("tables that stand:", FILLED, &self.filled),
            few("a step answered", 0..=11, &self.steps),
            few("a dump answered", [0, 11, 12], &self.dumps),
            few("a load answered", [0, 15, 16, 17, 18, 19], &self.loads),
            few("a pick answered", [0, 2], &self.picks),
        ];
        missing.concat()
    }
}

fn few<T: Ord + ToString>(
    of: &str,
    wanted: impl IntoIterator<Item = T>,
    counts: &BTreeMap<T, u64>,
) -> Vec<String> {
    let is_rare = |what: &T| counts.get(what).copied().unwrap_or(0) < REACHED;
    wanted.into_iter().filter(is_rare).map(|what| format!("{of} {}", what.to_string())).collect()
}

fn listed<T: ToString>(counts: &BTreeMap<T, u64>) -> String {
    let parts: Vec<String> = counts.iter().map(|(what, count)| format!("{} {count}", what.to_string())).collect();
    parts.join(", ")
}

pub fn print_head() {
    println!("{:<37} {:>9} {:>9} {:>11} {:>11}", "kind", "tables", "stand", "refused 11", "differences");
}

impl Counted {
    pub fn print(&self, kind: Kind) {
        let Counted { tables, stand, failed } = self;
        println!("{kind:<37} {tables:>9} {stand:>9} {:>11} {failed:>11}", tables - stand);
    }
}
