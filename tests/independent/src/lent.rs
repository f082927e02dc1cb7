//! Step, batch, dump and load over lent plain tables, which may be bad.

use crate::batch::{self, Batch};
use crate::dump;
use crate::node::{Decision, Node};
use crate::numbers::{Refusal, NOBODY};
use crate::tables::Tables;
use crate::thread::NO_ANSWER;

/// One event on lent tables. A refusal leaves them as they are.
pub fn step(tables: &mut Tables, bytes: &[u8]) -> Decision {
    let Some(mut node) = Node::from_tables(tables) else {
        return bad_tables();
    };
    let decision = node.step(bytes);
    if decision.refusal == 0 {
        *tables = node.tables();
    }
    decision
}

/// The complete fields of the bytes on lent tables, with a buffer for so many numbers. Tables stay as they are if nothing is accepted.
pub fn batch(tables: &mut Tables, bytes: &[u8], room: usize) -> Batch {
    let mut node = Node::from_tables(tables);
    let batch = batch::run(node.as_mut(), bytes, room);
    if let Some(node) = node.filter(|_| batch.accepted() > 0) {
        *tables = node.tables();
    }
    batch
}

pub(crate) fn bad_tables() -> Decision {
    let (kind, sender, word) = NO_ANSWER;
    let refusal = Refusal::BadTables.number();
    Decision { refusal, status: NOBODY, runner: NOBODY, kind, sender, word }
}

/// Write the dump into a lent buffer; gives refusal and length.
pub fn dump(tables: &Tables, buffer: &mut [u8]) -> (u8, usize) {
    let Some(node) = Node::from_tables(tables) else {
        return (Refusal::BadTables.number(), 0);
    };
    let bytes = node.dump();
    if buffer.len() < bytes.len() {
        return (Refusal::ShortBuffer.number(), 0);
    }
    buffer[..bytes.len()].copy_from_slice(&bytes);
    (0, bytes.len())
}

/// Read a dump into lent tables; gives refusal and offset. A refusal leaves the tables as they are.
pub fn load(tables: &mut Tables, bytes: &[u8]) -> (u8, usize) {
    match dump::load(bytes) {
        Ok(node) => {
            *tables = node.tables();
            (0, 0)
        }
        Err(bad) => bad.numbers(),
    }
}
