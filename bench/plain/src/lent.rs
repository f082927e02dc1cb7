//! Lent tables: numbers alone, so that every bit pattern of the lent room is a value. They are read into rows, checked, stepped and written
//! back, as the proved step does it. Rows are in the order of the dump. The status is no part of them.

use crate::batch::{has_room, run};
use crate::numbers::{refusal, DEVICES, MESSAGES, THREADS};
use crate::threads::{State, Thread};
use crate::{load, Answer, Bad, Decision, Plain};

pub use crate::threads::{Held, Message};

/// The numbers of field 2 of the dump.
#[derive(Clone, Copy, Debug, Default, PartialEq, Eq)]
pub struct LentThread {
    pub name: u8,
    pub parent: u8,
    pub state: u8,
    pub detail: u8,
    pub program: u8,
    pub tlb: u8,
    pub sysbp: u8,
    pub kind: u8,
    pub sender: u8,
    pub ticks: u32,
    pub word: u32,
}

/// An array and a count, which may be too high.
#[derive(Clone, Copy, Debug, PartialEq, Eq)]
pub struct LentRow<T, const N: usize> {
    pub row: [T; N],
    pub n: usize,
}

/// What stands behind a count means nothing.
#[derive(Clone, Debug, PartialEq, Eq)]
pub struct Tables {
    pub last: u8,
    pub runner: u8,
    pub slice: u8,
    pub since: u8,
    pub beats: u32,
    pub threads: LentRow<LentThread, THREADS>,
    pub ready: LentRow<u8, THREADS>,
    pub clock: LentRow<u8, THREADS>,
    pub messages: LentRow<Message, MESSAGES>,
    pub held: LentRow<Held, DEVICES>,
}

impl Tables {
    pub fn start() -> Tables {
        Tables::of(&Plain::start())
    }

    pub fn of(plain: &Plain) -> Tables {
        let mut tables = Tables::empty();
        plain.write(&mut tables);
        tables
    }

    fn empty() -> Tables {
        Tables {
            last: 0,
            runner: 0,
            slice: 0,
            since: 0,
            beats: 0,
            threads: LentRow::empty(),
            ready: LentRow::empty(),
            clock: LentRow::empty(),
            messages: LentRow::empty(),
            held: LentRow::empty(),
        }
    }

    /// The check by itself.
    pub fn meet_rules(&self) -> bool {
        let mut plain = Plain::EMPTY;
        plain.read(self)
    }
}

/// One event on lent tables. A refusal leaves them as they are.
pub fn step_checked(tables: &mut Tables, field: &[u8]) -> Decision {
    let mut plain = Plain::EMPTY;
    if !plain.read(tables) {
        return Decision::NO_TABLES;
    }
    let decision = plain.step(field);
    if decision.refusal == 0 {
        plain.write(tables);
    }
    decision
}

/// A batch on lent tables: read and checked before its first event, and written back behind its last one, if any was accepted.
pub fn batch_checked<'a>(tables: &mut Tables, events: &'a [u8], out: &mut [u32]) -> Result<&'a [u8], u8> {
    has_room(events, out)?;
    let mut plain = Plain::EMPTY;
    if !plain.read(tables) {
        return Ok(run(events, out, |_| Decision::NO_TABLES));
    }
    let mut changed = false;
    let rest = run(events, out, |field| {
        let decision = plain.step(field);
        changed |= decision.refusal == 0;
        decision
    });
    if changed {
        plain.write(tables);
    }
    Ok(rest)
}

/// The length of the dump, or refusal 11 or 12.
pub fn dump_checked(tables: &Tables, buffer: &mut [u8]) -> Result<usize, u8> {
    let mut plain = Plain::EMPTY;
    if !plain.read(tables) {
        return Err(refusal::NO_TABLES);
    }
    plain.dump(buffer)
}

/// A refusal, 15 to 19, leaves the tables as they are.
pub fn load_checked(tables: &mut Tables, bytes: &[u8]) -> Result<(), Bad> {
    load(bytes)?.write(tables);
    Ok(())
}

impl<T: Copy + Default, const N: usize> LentRow<T, N> {
    fn empty() -> LentRow<T, N> {
        LentRow { row: [T::default(); N], n: 0 }
    }

    fn copy(&mut self, entries: &[T]) {
        self.row[..entries.len()].copy_from_slice(entries);
        self.n = entries.len();
    }
}

impl Plain {
    /// Whether the numbers stand for tables that meet the table rules. Only then are the rows those of the tables.
    fn read(&mut self, tables: &Tables) -> bool {
        self.read_numbers(tables).is_some() && self.meets_rules()
    }

    /// Into empty rows. None if a count is over its array or numbers stand for no state; the table rules judge all else.
    fn read_numbers(&mut self, tables: &Tables) -> Option<()> {
        self.last = tables.last;
        self.runner = tables.runner;
        self.slice = tables.slice;
        self.since = tables.since;
        self.beats = tables.beats;
        for lent in tables.threads.row.get(..tables.threads.n)? {
            self.threads.push(thread_of(lent)?);
        }
        self.ready.copy(&tables.ready.row, tables.ready.n)?;
        self.clock.copy(&tables.clock.row, tables.clock.n)?;
        self.messages.copy(&tables.messages.row, tables.messages.n)?;
        self.held.copy(&tables.held.row, tables.held.n)
    }

    fn write(&self, tables: &mut Tables) {
        tables.last = self.last;
        tables.runner = self.runner;
        tables.slice = self.slice;
        tables.since = self.since;
        tables.beats = self.beats;
        tables.threads.n = self.threads.len();
        for (lent, thread) in tables.threads.row.iter_mut().zip(self.threads.iter()) {
            *lent = thread_numbers(thread);
        }
        tables.ready.copy(&self.ready);
        tables.clock.copy(&self.clock);
        tables.messages.copy(&self.messages);
        tables.held.copy(&self.held);
    }
}

fn thread_of(lent: &LentThread) -> Option<Thread> {
    Some(Thread {
        name: lent.name,
        parent: lent.parent,
        state: State::from_numbers(lent.state, lent.detail)?,
        managers: [lent.program, lent.tlb, lent.sysbp],
        ticks: lent.ticks,
        answer: Answer { kind: lent.kind, sender: lent.sender, word: lent.word },
    })
}

fn thread_numbers(thread: &Thread) -> LentThread {
    let (state, detail) = thread.state.numbers();
    let [program, tlb, sysbp] = thread.managers;
    let Answer { kind, sender, word } = thread.answer;
    let Thread { name, parent, ticks, .. } = *thread;
    LentThread { name, parent, state, detail, program, tlb, sysbp, kind, sender, ticks, word }
}
