//! 19: the other rules.

use super::place_in;
use crate::breaks::{self, busy, in_order, in_states, live};
use crate::fault::Cause;
use crate::numbers::{FIRST, NAMES, NOBODY, SSI, THREADS};
use crate::random::Random;
use crate::tables::{state, RawHeld, RawMessage, Tables};

pub fn spoil(tables: &mut Tables, cause: Cause, random: &mut Random) -> Option<()> {
    match cause {
        Cause::ThreadsNotRising => {
            return swap(&mut tables.threads, random, |one, other| one.name != other.name)
        }
        Cause::MessagesNotRising => {
            return swap(&mut tables.messages, random, |one, other| one.receiver != other.receiver)
        }
        Cause::HeldNotRising => {
            return swap(&mut tables.held, random, |one, other| one.device != other.device)
        }
        Cause::NameTwice if tables.threads.len() < THREADS => breaks::thread_twice(tables, random)?,
        Cause::TooManyThreads => breaks::too_many_threads(tables, random)?,
        Cause::WrongRoot => wrong_root(tables, random)?,
        Cause::CycleOfParents => cycle_of_parents(tables, random)?,
        Cause::RunnerDisagrees => runner_disagrees(tables, random)?,
        Cause::ReadyDisagrees if tables.has_runner() => {
            let name = random.choose(&live(tables))?;
            disagree(&mut tables.ready, name, random);
        }
        Cause::ClockDisagrees => {
            let name = random.choose(&live(tables))?;
            disagree(&mut tables.clock, name, random);
        }
        Cause::TwoWaiters => two_waiters(tables, random)?,
        Cause::HeldAndAwaited => {
            let place = in_states(tables, &[state::DEVICE], random)?;
            tables.held.push(RawHeld { device: tables.threads[place].detail, word: 1 });
        }
        Cause::HeldTwice => tables.held.push(tables.held[place_in(&tables.held, random)?]),
        Cause::OwnManager => own_manager(tables, random)?,
        Cause::MatchInInbox => breaks::no_match(tables, random)?,
        Cause::TooManyMessages => breaks::message_count(tables, random)?,
        Cause::NoticeOfNotTrapped | Cause::NoticeElsewhere | Cause::NoticeTwice => {
            notice(tables, cause, random)?
        }
        Cause::WrongStatus => tables.status = (tables.status + 1 + random.below(3) as u8) % 4,
        // A runner that stops while nobody is ready leaves an idle node.
        Cause::ReadyWithoutRunner if tables.has_runner() && tables.ready.is_empty() => return None,
        Cause::ReadyWithoutRunner => breaks::ready_needs_runner(tables, random)?,
        Cause::AnswerOfNotReady => answer_of_not_ready(tables, random)?,
        _ => return None,
    }
    in_order(tables);
    Some(())
}

/// Two neighbours that are not alike.
fn swap<T>(row: &mut [T], random: &mut Random, unlike: impl Fn(&T, &T) -> bool) -> Option<()> {
    let pairs: Vec<usize> = (1..row.len()).filter(|&place| unlike(&row[place - 1], &row[place])).collect();
    let place = random.choose(&pairs)?;
    row.swap(place - 1, place);
    Some(())
}

/// Another thread has no parent; seldom it is 0's parent too.
fn wrong_root(tables: &mut Tables, random: &mut Random) -> Option<()> {
    let others: Vec<usize> =
        (0..tables.threads.len()).filter(|&place| tables.threads[place].name != FIRST).collect();
    let place = random.choose(&others)?;
    tables.threads[place].parent = NOBODY;
    if random.one_in(3) {
        let name = tables.threads[place].name;
        tables.threads.iter_mut().find(|thread| thread.name == FIRST)?.parent = name;
    }
    Some(())
}

/// One is its own parent, or its child's child.
fn cycle_of_parents(tables: &mut Tables, random: &mut Random) -> Option<()> {
    let place = place_in(&tables.threads, random)?;
    let name = tables.threads[place].name;
    let children = tables.threads.iter().filter(|thread| thread.parent == name).map(|thread| thread.name);
    let below: Vec<u8> = children.chain([name]).collect();
    if name == FIRST {
        return None;
    }
    tables.threads[place].parent = random.choose(&below)?;
    Some(())
}

/// A receiver runs too, or the runner is a thread that does not run.
fn runner_disagrees(tables: &mut Tables, random: &mut Random) -> Option<()> {
    if tables.has_runner() && random.one_in(2) {
        let others: Vec<u8> = live(tables).into_iter().filter(|&name| name != tables.runner).collect();
        tables.runner = random.choose(&others)?;
        return Some(());
    }
    let place = in_states(tables, &[state::RECEIVING], random)?;
    (tables.threads[place].state, tables.threads[place].detail) = (state::RUNNING, 0);
    Some(())
}

/// A name is lost, stands twice, or stands there for a thread that is in another state.
fn disagree(queue: &mut Vec<u8>, name: u8, random: &mut Random) {
    match (place_in(queue, random), random.below(3)) {
        (Some(place), 0) => drop(queue.remove(place)),
        (Some(place), 1) => queue.push(queue[place]),
        (place, _) => queue.insert(place.unwrap_or(0), name),
    }
}

/// Another thread that waits waits for the same device.
fn two_waiters(tables: &mut Tables, random: &mut Random) -> Option<()> {
    let place = in_states(tables, &[state::DEVICE], random)?;
    let device = tables.threads[place].detail;
    let other = in_states(tables, &[state::DEVICE, state::RECEIVING], random)?;
    if other == place {
        return None;
    }
    (tables.threads[other].state, tables.threads[other].detail) = (state::DEVICE, device);
    Some(())
}

/// In an entry that it does not wait for.
fn own_manager(tables: &mut Tables, random: &mut Random) -> Option<()> {
    let place = place_in(&tables.threads, random)?;
    let thread = &mut tables.threads[place];
    let kind = random.below(3) as u8;
    if thread.state == state::TRAPPED && thread.detail == kind {
        return None;
    }
    thread.managers[usize::from(kind)] = thread.name;
    Some(())
}

fn notice(tables: &mut Tables, cause: Cause, random: &mut Random) -> Option<()> {
    let notices: Vec<usize> =
        (0..tables.messages.len()).filter(|&place| tables.messages[place].kind == 2).collect();
    match cause {
        Cause::NoticeTwice => tables.messages.push(tables.messages[random.choose(&notices)?]),
        Cause::NoticeElsewhere => {
            let place = random.choose(&notices)?;
            let receiver = tables.threads[busy(tables, random)?].name;
            if tables.messages[place].receiver == receiver {
                return None;
            }
            tables.messages[place].receiver = receiver;
        }
        _ => {
            let states = [state::RUNNING, state::READY, state::RECEIVING, state::CLOCK, state::DEVICE];
            let sender = tables.threads[in_states(tables, &states, random)?].name;
            let receiver = tables.threads[busy(tables, random)?].name;
            tables.messages.push(RawMessage { receiver, sender, kind: 2, word: 0 });
        }
    }
    Some(())
}

fn answer_of_not_ready(tables: &mut Tables, random: &mut Random) -> Option<()> {
    let states = [state::RUNNING, state::RECEIVING, state::CLOCK, state::DEVICE, state::TRAPPED];
    let place = in_states(tables, &states, random)?;
    let name = random.below(NAMES.into()) as u8;
    let thread = &mut tables.threads[place];
    (thread.answer_kind, thread.answer_sender, thread.answer_word) =
        random.choose(&[(1, name, 7), (2, name, 7), (3, name, 0), (4, SSI, 7)])?;
    Some(())
}
