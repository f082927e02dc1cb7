//! Tables with one table rule broken, and as far as it goes no other.
//!
//! Each way keeps the order of the dump, so the reader has nothing to refuse but the rule itself. `None` says that the tables give no
//! room for it.

use crate::numbers::{BEAT, BLOCKS, DEVICES, FIRST, GONE, NAMES, NOBODY, SLICE, SSI, THREADS};
use crate::random::Random;
use crate::spoil::place_in;
use crate::tables::{state, RawHeld, RawMessage, RawThread, Rule, Tables};

/// All rules, in document 01's order.
pub const RULES: [Rule; 15] = [
    Rule::Ranges,
    Rule::LiveNames,
    Rule::Parents,
    Rule::Queues,
    Rule::Devices,
    Rule::NamesWantedAndSet,
    Rule::TrappedManager,
    Rule::NoMatchInInbox,
    Rule::MessageNames,
    Rule::MessageCount,
    Rule::Notices,
    Rule::Status,
    Rule::ReadyNeedsRunner,
    Rule::Slice,
    Rule::Answers,
];

/// Break the rule in one of its ways.
pub fn break_rule(tables: &mut Tables, rule: Rule, random: &mut Random) -> Option<()> {
    match rule {
        Rule::Ranges => ranges(tables, random)?,
        Rule::LiveNames => live_names(tables, random)?,
        Rule::Parents => parents(tables, random)?,
        Rule::Queues => queues(tables, random)?,
        Rule::Devices => devices(tables, random)?,
        Rule::NamesWantedAndSet => names_wanted_and_set(tables, random)?,
        Rule::TrappedManager => trapped_manager(tables, random)?,
        Rule::NoMatchInInbox => no_match(tables, random)?,
        Rule::MessageNames => message_names(tables, random)?,
        Rule::MessageCount => message_count(tables, random)?,
        Rule::Notices => notices(tables, random)?,
        Rule::Status => tables.status = (tables.status + 1 + random.below(3) as u8) % 4,
        Rule::ReadyNeedsRunner => ready_needs_runner(tables, random)?,
        Rule::Slice if tables.runner == NOBODY => tables.slice = 1 + random.below(SLICE.into()) as u8,
        Rule::Slice => tables.slice = 0,
        Rule::Answers => answers(tables, random)?,
    }
    in_order(tables);
    Some(())
}

/// The order of the dump.
pub(crate) fn in_order(tables: &mut Tables) {
    tables.threads.sort_by_key(|thread| thread.name);
    tables.messages.sort_by_key(|message| message.receiver);
    tables.held.sort_by_key(|held| held.device);
}

/// The place of a thread in one of these states.
pub(crate) fn in_states(tables: &Tables, states: &[u8], random: &mut Random) -> Option<usize> {
    let fits = |&place: &usize| states.contains(&tables.threads[place].state);
    let places: Vec<usize> = (0..tables.threads.len()).filter(fits).collect();
    random.choose(&places)
}

pub(crate) fn live(tables: &Tables) -> Vec<u8> {
    tables.threads.iter().map(|thread| thread.name).collect()
}

pub(crate) fn dead_name(tables: &Tables, random: &mut Random) -> Option<u8> {
    let live = live(tables);
    let dead: Vec<u8> = (0..NAMES).filter(|name| !live.contains(name)).collect();
    random.choose(&dead)
}

fn ranges(tables: &mut Tables, random: &mut Random) -> Option<()> {
    match random.below(5) {
        0 => tables.name_given_last = NAMES + random.below(2) as u8,
        1 => tables.ticks_since_beat = BEAT + random.below(236) as u8,
        2 => {
            let place = in_states(tables, &[state::RUNNING, state::READY, state::CLOCK], random)?;
            tables.threads[place].detail = 1 + random.below(255) as u8;
        }
        3 => {
            let ordinary = |&place: &usize| tables.messages[place].kind == 1;
            let places: Vec<usize> = (0..tables.messages.len()).filter(ordinary).collect();
            let place = random.choose(&places)?;
            tables.messages[place].kind = random.choose(&[0, 3, 4, 5])?;
        }
        _ => {
            let device = DEVICES + random.below(208) as u8;
            tables.held.push(RawHeld { device, word: 0 });
        }
    }
    Some(())
}

/// A thread twice, or one more than there may be.
fn live_names(tables: &mut Tables, random: &mut Random) -> Option<()> {
    if random.one_in(2) {
        thread_twice(tables, random)
    } else {
        too_many_threads(tables, random)
    }
}

pub(crate) fn thread_twice(tables: &mut Tables, random: &mut Random) -> Option<()> {
    let place = in_states(tables, &[state::RECEIVING, state::TRAPPED], random)?;
    tables.threads.push(tables.threads[place]);
    Some(())
}

pub(crate) fn too_many_threads(tables: &mut Tables, random: &mut Random) -> Option<()> {
    let parent = random.choose(&live(tables))?;
    while tables.threads.len() <= THREADS {
        let name = dead_name(tables, random)?;
        tables.threads.push(receiver(name, parent));
    }
    Some(())
}

/// A thread that receives from anybody.
fn receiver(name: u8, parent: u8) -> RawThread {
    RawThread {
        name,
        parent,
        state: state::RECEIVING,
        detail: NOBODY,
        managers: [NOBODY; 3],
        count: 0,
        answer_kind: 0,
        answer_sender: NOBODY,
        answer_word: 0,
    }
}

/// A parent that is not live, oneself, a child, or none; or a parent of thread 0.
fn parents(tables: &mut Tables, random: &mut Random) -> Option<()> {
    let place = place_in(&tables.threads, random)?;
    let name = tables.threads[place].name;
    let parent = match random.below(4) {
        0 => dead_name(tables, random)?,
        1 => name,
        2 if name != FIRST => NOBODY,
        _ => {
            let child = tables.threads.iter().find(|thread| thread.parent == name)?;
            child.name
        }
    };
    tables.threads[place].parent = parent;
    Some(())
}

/// A queue lacks a name, has one twice, or has a wrong one.
fn queues(tables: &mut Tables, random: &mut Random) -> Option<()> {
    let wrong = match random.below(2) {
        0 => dead_name(tables, random)?,
        _ => random.choose(&live(tables))?,
    };
    let has_runner = tables.runner != NOBODY;
    let queue = if has_runner && random.one_in(2) { &mut tables.ready } else { &mut tables.clock };
    match (place_in(queue, random), random.below(3)) {
        (Some(place), 0) => drop(queue.remove(place)),
        (Some(place), 1) => queue[place] = wrong,
        (place, _) => queue.insert(place.unwrap_or(0), wrong),
    }
    Some(())
}

/// A word held for a device that is waited for, held twice, or two waiters.
fn devices(tables: &mut Tables, random: &mut Random) -> Option<()> {
    let waiter = in_states(tables, &[state::DEVICE], random);
    let held = place_in(&tables.held, random);
    match (waiter, held, random.below(3)) {
        (Some(place), _, 0) => {
            let device = tables.threads[place].detail;
            tables.held.push(RawHeld { device, word: 1 });
        }
        (Some(place), Some(word), 1) => tables.threads[place].detail = tables.held[word].device,
        (Some(place), _, _) => {
            let other = in_states(tables, &[state::DEVICE, state::TRAPPED], random)?;
            if other == place
                || tables.messages.iter().any(|m| m.kind == 2 && m.sender == tables.threads[other].name)
            {
                return None;
            }
            let device = tables.threads[place].detail;
            (tables.threads[other].state, tables.threads[other].detail) = (state::DEVICE, device);
            // A panicked node with one more waiter would be idle; there is a waiter already, so it is not panicked.
        }
        (None, Some(word), _) => tables.held.push(tables.held[word]),
        (None, None, _) => return None,
    }
    Some(())
}

fn names_wanted_and_set(tables: &mut Tables, random: &mut Random) -> Option<()> {
    let dead = dead_name(tables, random)?;
    if random.one_in(3) {
        let place = in_states(tables, &[state::RECEIVING], random)?;
        tables.threads[place].detail = dead;
        return Some(());
    }
    let place = place_in(&tables.threads, random)?;
    let thread = &mut tables.threads[place];
    let kind = random.below(3) as u8;
    // The manager that a trapped thread waits for has rules of its own.
    if thread.state == state::TRAPPED && thread.detail == kind {
        return None;
    }
    thread.managers[usize::from(kind)] = if random.one_in(2) { dead } else { thread.name };
    Some(())
}

fn trapped_manager(tables: &mut Tables, random: &mut Random) -> Option<()> {
    let place = in_states(tables, &[state::TRAPPED], random)?;
    let thread = &mut tables.threads[place];
    let name = thread.name;
    thread.managers[usize::from(thread.detail)] = if random.one_in(2) { GONE } else { NOBODY };
    tables.messages.retain(|message| message.kind == 1 || message.sender != name);
    Some(())
}

/// A message or a notice that its receiver waits for.
pub(crate) fn no_match(tables: &mut Tables, random: &mut Random) -> Option<()> {
    let place = in_states(tables, &[state::RECEIVING], random)?;
    let RawThread { name: receiver, detail: wanted, .. } = tables.threads[place];
    let notices: Vec<u8> = trapped_without_notice(tables, receiver, wanted);
    if let (Some(sender), true) = (random.choose(&notices), random.one_in(2)) {
        tables.messages.push(RawMessage { receiver, sender, kind: 2, word: 0 });
        return Some(());
    }
    make_room(tables);
    let sender = if wanted == NOBODY { random.choose(&live(tables))? } else { wanted };
    tables.messages.push(RawMessage { receiver, sender, kind: 1, word: 0 });
    Some(())
}

/// Those trapped on this manager whose notice is in no inbox and is wanted.
fn trapped_without_notice(tables: &Tables, manager: u8, wanted: u8) -> Vec<u8> {
    let unread = |name| tables.messages.iter().any(|m| m.kind == 2 && m.sender == name);
    let fits = |thread: &&RawThread| {
        thread.state == state::TRAPPED
            && thread.managers.get(usize::from(thread.detail)) == Some(&manager)
            && (wanted == NOBODY || wanted == thread.name)
            && !unread(thread.name)
    };
    tables.threads.iter().filter(fits).map(|thread| thread.name).collect()
}

/// At most 19 ordinary messages.
fn make_room(tables: &mut Tables) {
    let ordinary = |message: &RawMessage| message.kind == 1;
    if tables.messages.iter().filter(|m| ordinary(m)).count() >= BLOCKS {
        if let Some(place) = tables.messages.iter().position(ordinary) {
            tables.messages.remove(place);
        }
    }
}

fn message_names(tables: &mut Tables, random: &mut Random) -> Option<()> {
    let dead = dead_name(tables, random)?;
    make_room(tables);
    let place = busy(tables, random)?;
    let name = tables.threads[place].name;
    let (receiver, sender) = if random.one_in(2) { (name, dead) } else { (dead, name) };
    tables.messages.push(RawMessage { receiver, sender, kind: 1, word: 0 });
    Some(())
}

/// The place of a thread that waits for no message.
pub(crate) fn busy(tables: &Tables, random: &mut Random) -> Option<usize> {
    in_states(tables, &[state::RUNNING, state::READY, state::CLOCK, state::DEVICE, state::TRAPPED], random)
}

pub(crate) fn message_count(tables: &mut Tables, random: &mut Random) -> Option<()> {
    let place = busy(tables, random)?;
    let receiver = tables.threads[place].name;
    while tables.messages.iter().filter(|message| message.kind == 1).count() <= BLOCKS {
        let sender = random.choose(&live(tables))?;
        tables.messages.push(RawMessage { receiver, sender, kind: 1, word: 0 });
    }
    Some(())
}

/// A notice of one not trapped, to another one, or a second one.
fn notices(tables: &mut Tables, random: &mut Random) -> Option<()> {
    let place = busy(tables, random)?;
    let receiver = tables.threads[place].name;
    let sender = match (random.below(2), tables.messages.iter().find(|message| message.kind == 2)) {
        (0, Some(notice)) => notice.sender,
        _ => random.choose(&live(tables))?,
    };
    tables.messages.push(RawMessage { receiver, sender, kind: 2, word: 0 });
    Some(())
}

/// The runner waits for the clock, and nobody runs though somebody is ready.
pub(crate) fn ready_needs_runner(tables: &mut Tables, random: &mut Random) -> Option<()> {
    if tables.runner != NOBODY {
        let runner = tables.runner;
        let thread = tables.threads.iter_mut().find(|thread| thread.name == runner)?;
        thread.state = state::CLOCK;
        tables.clock.push(runner);
        (tables.runner, tables.slice) = (NOBODY, 0);
        tables.status = 1;
        return Some(());
    }
    // One of those who wait becomes ready; the status says idle still if another waits on.
    let place = in_states(tables, &[state::DEVICE, state::RECEIVING], random)?;
    let thread = &mut tables.threads[place];
    (thread.state, thread.detail) = (state::READY, 0);
    tables.ready.push(thread.name);
    Some(())
}

/// An answer for one that is not ready, or of a wrong form.
fn answers(tables: &mut Tables, random: &mut Random) -> Option<()> {
    let place = place_in(&tables.threads, random)?;
    let name = random.below(NAMES.into()) as u8;
    let thread = &mut tables.threads[place];
    let well_formed = [(1, name, 7), (2, name, 7), (3, name, 0), (4, SSI, 7)];
    let odd = [
        (0, name, 0),
        (0, NOBODY, 1),
        (1, SSI, 0),
        (2, NOBODY, 0),
        (3, name, 1),
        (3, SSI, 0),
        (4, name, 0),
        (4, NOBODY, 0),
    ];
    let answer = if thread.state != state::READY && random.one_in(2) {
        random.choose(&well_formed)?
    } else {
        random.choose(&odd)?
    };
    (thread.answer_kind, thread.answer_sender, thread.answer_word) = answer;
    Some(())
}
