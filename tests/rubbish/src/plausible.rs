//! Random numbers, each in its range and rows in the order of the dump: most break some table rules, and some none.

use nucleus::random::Random;
use nucleus::tables::{RawHeld, RawMessage, RawThread};
use nucleus::Tables;

pub fn numbers(random: &mut Random) -> Tables {
    let names = names(random);
    let threads: Vec<RawThread> = names.iter().map(|&name| thread(name, &names, random)).collect();
    let running = threads.iter().find(|thread| thread.state == 0).map(|thread| thread.name);
    let mut tables = Tables {
        status: 0,
        name_given_last: random.below(254) as u8,
        runner: running.filter(|_| !random.one_in(8)).unwrap_or(255),
        slice: random.below(6) as u8,
        ticks_since_beat: random.below(20) as u8,
        beats: random.bits() as u32,
        ready: in_state(&threads, 1),
        clock: in_state(&threads, 3),
        threads,
        messages: messages(&names, random),
        held: held(random),
    };
    if tables.runner == 255 && !random.one_in(4) {
        tables.slice = 0;
    }
    tables
}

/// By rising name. Few are common, since fewer rules are broken then.
fn names(random: &mut Random) -> Vec<u8> {
    let most = random.choose(&[1, 2, 3, 4, 20]).unwrap_or(1);
    let mut names: Vec<u8> = (0..random.below(most + 1)).map(|_| random.below(254) as u8).collect();
    names.sort_unstable();
    if let Some(first) = names.first_mut().filter(|_| !random.one_in(10)) {
        *first = 0;
    }
    if !random.one_in(10) {
        names.dedup();
    }
    names
}

/// One of these names, or another number.
fn name(names: &[u8], other: u8, random: &mut Random) -> u8 {
    random.choose(names).filter(|_| !random.one_in(6)).unwrap_or(other)
}

fn thread(name_of_it: u8, names: &[u8], random: &mut Random) -> RawThread {
    let state = random.weighted(&[(2, 0), (2, 1), (2, 2), (1, 3), (1, 4), (1, 5)]);
    let detail = match state {
        2 => name(names, 255, random),
        4 => random.below(48) as u8,
        5 => random.below(3) as u8,
        _ => 0,
    };
    let any = random.below(254) as u8;
    let (answer_kind, answer_sender, answer_word) = match random.below(10) {
        1 => (1, any, 7),
        2 => (2, any, 0),
        3 => (3, any, 0),
        4 => (4, 254, u32::MAX),
        _ => (0, 255, 0),
    };
    RawThread {
        name: name_of_it,
        parent: if name_of_it == 0 { 255 } else { name(names, 0, random) },
        state,
        detail,
        managers: [255, 254, 255].map(|other| if random.one_in(2) { other } else { name(names, other, random) }),
        count: random.bits() as u32,
        answer_kind,
        answer_sender,
        answer_word,
    }
}

fn in_state(threads: &[RawThread], state: u8) -> Vec<u8> {
    threads.iter().filter(|thread| thread.state == state).map(|thread| thread.name).collect()
}

fn messages(names: &[u8], random: &mut Random) -> Vec<RawMessage> {
    let most = random.choose(&[1, 2, 41]).unwrap_or(1);
    let mut messages: Vec<RawMessage> = (0..random.below(most)).map(|_| message(names, random)).collect();
    messages.sort_by_key(|message| message.receiver);
    messages
}

fn message(names: &[u8], random: &mut Random) -> RawMessage {
    RawMessage {
        receiver: name(names, 0, random),
        sender: name(names, 0, random),
        kind: random.weighted(&[(4, 1), (1, 2)]),
        word: random.bits() as u32,
    }
}

fn held(random: &mut Random) -> Vec<RawHeld> {
    let one_in = random.choose(&[1, 2, 10, 100]).unwrap_or(1);
    let devices: Vec<u8> = (0..48).filter(|_| random.one_in(one_in)).collect();
    devices.into_iter().map(|device| RawHeld { device, word: random.bits() as u32 }).collect()
}
