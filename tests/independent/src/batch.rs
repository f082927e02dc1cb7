//! A batch of events in one call: request 2 of document 02.

use crate::event::first_field;
use crate::lent::bad_tables;
use crate::node::{Decision, Node};
use crate::numbers::Refusal;

/// The numbers of a decision.
pub const NUMBERS: usize = 6;

/// What a batch answers.
#[derive(Clone, Debug, Default, PartialEq, Eq)]
pub struct Batch {
    /// 0 or 14.
    pub refusal: u8,
    /// What it writes to the front of the buffer.
    pub numbers: Vec<u32>,
    /// Where the unread end of the bytes begins.
    pub read: usize,
}

impl Batch {
    /// The decisions, six numbers each.
    pub fn decisions(&self) -> impl Iterator<Item = &[u32]> {
        self.numbers.chunks(NUMBERS)
    }

    /// How many events were accepted.
    pub fn accepted(&self) -> usize {
        self.decisions().filter(|decision| decision[0] == 0).count()
    }
}

/// The fields that are there with head and declared length, malformed or not. Behind them is the unread end.
pub fn complete_fields(bytes: &[u8]) -> Vec<&[u8]> {
    let mut fields = Vec::new();
    let mut rest = bytes;
    while let Some((_, _, behind)) = first_field(rest) {
        fields.push(&rest[..rest.len() - behind.len()]);
        rest = behind;
    }
    fields
}

/// The complete fields of the bytes, one after the other, on the node that lent tables stand for: none if they do not meet the table rules.
/// The buffer holds so many numbers.
pub fn run(mut node: Option<&mut Node>, bytes: &[u8], room: usize) -> Batch {
    let fields = complete_fields(bytes);
    if room < NUMBERS * fields.len() {
        return Batch { refusal: Refusal::ShortBatch.number(), ..Batch::default() };
    }
    let mut batch = Batch::default();
    for field in fields {
        let decision = node.as_mut().map_or_else(bad_tables, |node| node.step(field));
        batch.numbers.extend(numbers(decision));
        batch.read += field.len();
    }
    batch
}

/// A decision as it stands in the buffer.
pub fn numbers(decision: Decision) -> [u32; NUMBERS] {
    let Decision { refusal, status, runner, kind, sender, word } = decision;
    [refusal.into(), status.into(), runner.into(), kind.into(), sender.into(), word]
}
