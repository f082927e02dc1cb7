//! Random tables that meet the table rules, whether a run can reach them or not.
//!
//! They are built so that the rules hold, and are in the order of the dump. What the rules leave free is drawn at random: counts, beats,
//! the name given last, orders of queues and inboxes, answers from threads that never were.

use crate::dump;
use crate::generator::{Form, Generator};
use crate::numbers::{BEAT, BLOCKS, DEVICES, FIRST, GONE, KINDS, NAMES, NOBODY, SLICE, SSI, THREADS};
use crate::random::Random;
use crate::tables::{state, RawHeld, RawMessage, RawThread, Tables};

/// Dumps without end: half of them on the way of long runs, half of built tables.
pub struct Dumps {
    random: Random,
    run: Generator,
}

/// A run gives way to another one after this many events.
const RUN: u64 = 5_000;

impl Dumps {
    pub fn new(seed: u64) -> Dumps {
        let mut random = Random::new(seed);
        let run = Generator::new(random.bits(), RUN, Form::Stream);
        Dumps { random, run }
    }

    pub fn next_dump(&mut self) -> Vec<u8> {
        if self.random.one_in(2) {
            return dump::write(&tables(&mut self.random));
        }
        for _ in 0..1 + self.random.below(30) {
            if self.run.next_event().is_none() {
                self.run = Generator::new(self.random.bits(), RUN, Form::Stream);
            }
        }
        self.run.node().dump()
    }

    pub fn random(&mut self) -> &mut Random {
        &mut self.random
    }
}

/// Tables that meet the rules.
pub fn tables(random: &mut Random) -> Tables {
    let mut tables = Tables {
        name_given_last: random.below(NAMES.into()) as u8,
        ticks_since_beat: random.below(BEAT.into()) as u8,
        beats: number(random),
        ..Tables::default()
    };
    tables.threads = family(random);
    let with_runner = random.percent(75);
    put_in_states(&mut tables, with_runner, random);
    set_managers(&mut tables, random);
    set_answers(&mut tables, random);
    add_messages(&mut tables, random);
    add_held(&mut tables, random);
    tables
}

/// Threads by rising name with parents, all running so far. Seldom none at all.
fn family(random: &mut Random) -> Vec<RawThread> {
    let size = match random.below(12) {
        0 => 0,
        1 | 2 => THREADS,
        _ => 1 + random.below(THREADS as u64) as usize,
    };
    let mut names: Vec<u8> = Vec::new();
    while names.len() < size {
        let name = if names.is_empty() { FIRST } else { random.below(NAMES.into()) as u8 };
        if !names.contains(&name) {
            names.push(name);
        }
    }
    let mut threads: Vec<RawThread> = Vec::new();
    for &name in &names {
        let older: Vec<u8> = threads.iter().map(|thread| thread.name).collect();
        let parent = random.choose(&older).unwrap_or(NOBODY);
        let count = number(random);
        threads.push(RawThread { name, parent, count, ..thread_without_news() });
    }
    threads.sort_by_key(|thread| thread.name);
    threads
}

fn thread_without_news() -> RawThread {
    RawThread {
        name: FIRST,
        parent: NOBODY,
        state: state::RUNNING,
        detail: 0,
        managers: [NOBODY; 3],
        count: 0,
        answer_kind: 0,
        answer_sender: NOBODY,
        answer_word: 0,
    }
}

/// Small numbers, any numbers, and those at the end of 32 bits.
fn number(random: &mut Random) -> u32 {
    match random.below(3) {
        0 => random.below(300) as u32,
        1 => u32::MAX - random.below(3) as u32,
        _ => random.bits() as u32,
    }
}

fn put_in_states(tables: &mut Tables, with_runner: bool, random: &mut Random) {
    let names: Vec<u8> = tables.threads.iter().map(|thread| thread.name).collect();
    let runner = if with_runner { random.choose(&names) } else { None };
    let mut devices = shuffled((0..DEVICES).collect(), random);
    for thread in &mut tables.threads {
        if Some(thread.name) == runner {
            continue;
        }
        thread.state = any_state(runner.is_some(), names.len(), random);
        thread.detail = match thread.state {
            state::RECEIVING if random.one_in(3) => NOBODY,
            state::RECEIVING => random.choose(&names).unwrap_or(NOBODY),
            state::DEVICE => devices.pop().unwrap_or(0),
            state::TRAPPED => random.below(KINDS.into()) as u8,
            _ => 0,
        };
    }
    tables.ready = shuffled(names_in(tables, state::READY), random);
    tables.clock = shuffled(names_in(tables, state::CLOCK), random);
    tables.runner = runner.unwrap_or(NOBODY);
    tables.slice = if runner.is_some() { 1 + random.below(SLICE.into()) as u8 } else { 0 };
    tables.status = tables.status_by_dispatch();
}

/// Nobody is ready without a runner, and nobody is trapped alone.
fn any_state(with_runner: bool, threads: usize, random: &mut Random) -> u8 {
    let ready = if with_runner { 4 } else { 0 };
    let trapped = if threads > 1 { 4 } else { 0 };
    random.weighted(&[
        (ready, state::READY),
        (3, state::RECEIVING),
        (1, state::CLOCK),
        (1, state::DEVICE),
        (trapped, state::TRAPPED),
    ])
}

fn names_in(tables: &Tables, state: u8) -> Vec<u8> {
    tables.threads.iter().filter(|thread| thread.state == state).map(|thread| thread.name).collect()
}

fn shuffled(mut row: Vec<u8>, random: &mut Random) -> Vec<u8> {
    for place in (1..row.len()).rev() {
        row.swap(place, random.below(place as u64 + 1) as usize);
    }
    row
}

/// Any entries, but a name where the thread is trapped with that kind.
fn set_managers(tables: &mut Tables, random: &mut Random) {
    let names: Vec<u8> = tables.threads.iter().map(|thread| thread.name).collect();
    for thread in &mut tables.threads {
        let others: Vec<u8> = names.iter().copied().filter(|&name| name != thread.name).collect();
        for kind in 0..KINDS {
            let needed = thread.state == state::TRAPPED && thread.detail == kind;
            let odd = random.weighted(&[(3, NOBODY), (1, GONE)]);
            let named = needed || random.one_in(2);
            let entry = if named { random.choose(&others).unwrap_or(odd) } else { odd };
            thread.managers[usize::from(kind)] = entry;
        }
    }
}

fn set_answers(tables: &mut Tables, random: &mut Random) {
    for thread in tables.threads.iter_mut().filter(|thread| thread.state == state::READY) {
        let sender = random.below(NAMES.into()) as u8;
        let word = number(random);
        let (kind, sender, word) = match random.below(5) {
            0 => (0, NOBODY, 0),
            3 => (3, sender, 0),
            4 => (4, SSI, word),
            kind => (kind as u8, sender, word),
        };
        (thread.answer_kind, thread.answer_sender, thread.answer_word) = (kind, sender, word);
    }
}

/// Notices of some of the trapped threads and ordinary messages, in inboxes that hold no match.
fn add_messages(tables: &mut Tables, random: &mut Random) {
    let mut messages = Vec::new();
    for thread in tables.threads.iter().filter(|thread| thread.state == state::TRAPPED) {
        let receiver = thread.managers[usize::from(thread.detail)];
        let notice = RawMessage { receiver, sender: thread.name, kind: 2, word: number(random) };
        if random.one_in(2) && may_stand(tables, &notice) {
            messages.push(notice);
        }
    }
    let names: Vec<u8> = tables.threads.iter().map(|thread| thread.name).collect();
    let wanted = if random.one_in(4) { BLOCKS as u64 } else { random.below(BLOCKS as u64 + 1) };
    for _ in 0..wanted {
        let (Some(receiver), Some(sender)) = (random.choose(&names), random.choose(&names)) else { break };
        let message = RawMessage { receiver, sender, kind: 1, word: number(random) };
        if may_stand(tables, &message) {
            messages.insert(random.below(messages.len() as u64 + 1) as usize, message);
        }
    }
    messages.sort_by_key(|message| message.receiver);
    tables.messages = messages;
}

/// Its receiver does not wait for it.
fn may_stand(tables: &Tables, message: &RawMessage) -> bool {
    let waits = |thread: &&RawThread| thread.name == message.receiver && thread.state == state::RECEIVING;
    let Some(receiver) = tables.threads.iter().find(waits) else { return true };
    receiver.detail != NOBODY && receiver.detail != message.sender
}

fn add_held(tables: &mut Tables, random: &mut Random) {
    let often = random.choose(&[0, 10, 50, 100]).unwrap_or(50);
    for device in 0..DEVICES {
        let waits = |thread: &RawThread| thread.state == state::DEVICE && thread.detail == device;
        if random.percent(often) && !tables.threads.iter().any(waits) {
            tables.held.push(RawHeld { device, word: number(random) });
        }
    }
}
