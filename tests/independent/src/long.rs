//! Long dumps: the longest there is, and others of nearly full tables.

use crate::dump;
use crate::numbers::{BLOCKS, DEVICES, FIRST, KINDS, NAMES, NOBODY, SLICE, THREADS};
use crate::random::Random;
use crate::tables::{state, RawHeld, RawMessage, RawThread, Tables};
use crate::valid;

/// The length of the longest dump.
pub const LONGEST: usize = 1202;

/// 20 threads in a ring of managers, those from this place on trapped with their notices unread; 20 ordinary messages; a word for each
/// device. From 0 on it is the longest dump; from 1 on the first thread runs, and there are 39 messages and notices.
pub fn full(first: usize, random: &mut Random) -> Tables {
    let mut tables = Tables { name_given_last: random.below(NAMES.into()) as u8, ..Tables::default() };
    tables.threads = ring(random);
    for thread in &mut tables.threads[..first] {
        (thread.state, thread.detail) = (state::RUNNING, 0);
    }
    tables.runner = if first == 0 { NOBODY } else { FIRST };
    tables.slice = if first == 0 { 0 } else { SLICE };
    tables.beats = random.bits() as u32;
    tables.status = tables.status_by_dispatch();
    tables.messages = messages(&tables.threads, random);
    tables.held = (0..DEVICES).map(|device| RawHeld { device, word: random.bits() as u32 }).collect();
    tables
}

/// Each is trapped on the next one, and is a son of the one before.
fn ring(random: &mut Random) -> Vec<RawThread> {
    let names = names(random);
    let thread = |place: usize, random: &mut Random| {
        let kind = random.below(KINDS.into()) as u8;
        let mut managers = [NOBODY; 3];
        managers[usize::from(kind)] = names[(place + 1) % THREADS];
        let parent = if place == 0 { NOBODY } else { names[place - 1] };
        let (name, count) = (names[place], random.bits() as u32);
        let (answer_kind, answer_sender, answer_word) = (0, NOBODY, 0);
        RawThread {
            name,
            parent,
            state: state::TRAPPED,
            detail: kind,
            managers,
            count,
            answer_kind,
            answer_sender,
            answer_word,
        }
    };
    (0..THREADS).map(|place| thread(place, random)).collect()
}

/// 20 names that rise from 0.
fn names(random: &mut Random) -> Vec<u8> {
    let mut names = vec![FIRST];
    while names.len() < THREADS {
        let name = random.below(NAMES.into()) as u8;
        if !names.contains(&name) {
            names.push(name);
        }
    }
    names.sort_unstable();
    names
}

/// The notice of each trapped thread, and 20 ordinary messages in any inboxes, before and behind notices.
fn messages(threads: &[RawThread], random: &mut Random) -> Vec<RawMessage> {
    let mut messages: Vec<RawMessage> = Vec::new();
    for thread in threads.iter().filter(|thread| thread.state == state::TRAPPED) {
        let receiver = thread.managers[usize::from(thread.detail)];
        messages.push(RawMessage { receiver, sender: thread.name, kind: 2, word: random.bits() as u32 });
    }
    for _ in 0..BLOCKS {
        let [receiver, sender] = [0; 2].map(|_| threads[random.below(THREADS as u64) as usize].name);
        let message = RawMessage { receiver, sender, kind: 1, word: random.bits() as u32 };
        messages.insert(random.below(messages.len() as u64 + 1) as usize, message);
    }
    messages.sort_by_key(|message| message.receiver);
    messages
}

/// A dump of any tables that has so many bytes at least.
pub fn any(least: usize, random: &mut Random) -> Vec<u8> {
    loop {
        let bytes = dump::write(&valid::tables(random));
        if bytes.len() >= least {
            return bytes;
        }
    }
}
