//! The nucleus of document 01 in plain Rust over array rows: the measure of speed for the proved one.
//!
//! The rows are those of the proved code, but they are changed in place, and names that can be 254 or 255 stay the document's numbers. No
//! unsafe code, no other crate. It is a measure and not a second nucleus: nothing but bench/ uses it.
//!
//! * `numbers`  the fixed numbers, the refusals
//! * `row`      a row: the first n entries of an array
//! * `threads`  threads, messages, held words, answers
//! * `events`   events as bytes
//! * `step`     refusals that hold for every event, the step, the decision
//! * `send`, `receive`, `trap`, `requests`, `ending`, `tick`, `interrupt`, `dispatch`: what each word does, its refusals first
//! * `rules`    the table rules
//! * `batch`    the complete fields of some bytes in one call
//! * `lent`     step, batch, dump and load over lent tables, which are numbers alone
//! * `dump`, `load`: the dump's writer and reader
//! * `fault`    where bytes are bad that are no dump
//!
//! With the feature `big` (crate big) the limits are 64 threads and 128 blocks, and there is the step alone: the table rules here have
//! sets of 32 places.

#![forbid(unsafe_code)]
#![cfg_attr(feature = "big", allow(dead_code))]

#[cfg(not(feature = "big"))]
pub mod batch;
mod dispatch;
#[cfg(not(feature = "big"))]
mod dump;
mod ending;
mod events;
#[cfg(not(feature = "big"))]
mod fault;
mod interrupt;
#[cfg(not(feature = "big"))]
pub mod lent;
#[cfg(not(feature = "big"))]
mod load;
pub mod numbers;
mod receive;
mod requests;
mod row;
#[cfg(not(feature = "big"))]
mod rules;
mod send;
mod step;
mod threads;
mod tick;
mod trap;

#[cfg(not(feature = "big"))]
pub use fault::Bad;
#[cfg(not(feature = "big"))]
pub use load::load;
pub use step::Decision;
pub use threads::Answer;

use numbers::{DEVICES, FIRST, MESSAGES, NOBODY, ORDINARY, SLICE, THREADS};
use row::Row;
use threads::{Held, Message, State, Thread};

/// The tables as rows. The status is not kept: it follows from the rest.
#[derive(Clone, Debug)]
pub struct Plain {
    /// The name given last.
    last: u8,
    /// A name or `NOBODY`.
    runner: u8,
    /// 0 without a runner.
    slice: u8,
    /// Ticks since the beat.
    since: u8,
    beats: u32,
    /// By rising name.
    threads: Row<Thread, THREADS>,
    /// Front first.
    ready: Row<u8, THREADS>,
    /// In order of waiting.
    clock: Row<u8, THREADS>,
    /// By rising receiver, oldest first.
    messages: Row<Message, MESSAGES>,
    /// By rising device.
    held: Row<Held, DEVICES>,
}

impl Plain {
    /// Empty rows, which a reader fills. A constant: to copy it is cheaper than to write every entry.
    const EMPTY: Plain = Plain {
        last: FIRST,
        runner: NOBODY,
        slice: 0,
        since: 0,
        beats: 0,
        threads: Row::empty(Thread::BLANK),
        ready: Row::empty(0),
        clock: Row::empty(0),
        messages: Row::empty(Message { to: 0, from: 0, kind: 0, word: 0 }),
        held: Row::empty(Held { device: 0, word: 0 }),
    };

    pub fn start() -> Plain {
        let mut plain = Plain::EMPTY;
        plain.runner = FIRST;
        plain.slice = SLICE;
        plain.threads.push(Thread::new(FIRST, NOBODY, State::Running));
        plain
    }

    /// What the bench's busy files are made by: the live names, by rising name; how many of them could run at once; the ordinary messages.
    pub fn live(&self) -> Vec<u8> {
        self.threads.iter().map(|thread| thread.name).collect()
    }

    pub fn active(&self) -> usize {
        self.threads.iter().filter(|thread| matches!(thread.state, State::Running | State::Ready)).count()
    }

    pub fn ordinary(&self) -> usize {
        self.messages.iter().filter(|message| message.kind == ORDINARY).count()
    }

    /// The place of a live thread. A walk: over so few names a search by halves was slower when both were measured.
    fn place(&self, name: u8) -> Option<usize> {
        self.threads.iter().position(|thread| thread.name == name)
    }
}
