//! 18: names that are not live.

use super::place_in;
use crate::breaks::{dead_name, in_order, in_states, live};
use crate::fault::Cause;
use crate::numbers::{GONE, NOBODY, SLICE};
use crate::random::Random;
use crate::tables::{state, RawMessage, Tables};

pub fn spoil(tables: &mut Tables, cause: Cause, random: &mut Random) -> Option<()> {
    let dead = dead_name(tables, random)?;
    match cause {
        Cause::RunnerNotLive => (tables.runner, tables.slice) = (dead, 1 + random.below(SLICE.into()) as u8),
        Cause::ReadyNotLive => put_name(&mut tables.ready, dead, random),
        Cause::ClockNotLive => put_name(&mut tables.clock, dead, random),
        Cause::ReceiverNotLive | Cause::SenderNotLive => message(tables, cause, dead, random)?,
        _ => thread(tables, cause, dead, random)?,
    }
    in_order(tables);
    Some(())
}

/// In place of another one, or beside them.
fn put_name(queue: &mut Vec<u8>, dead: u8, random: &mut Random) {
    match place_in(queue, random) {
        Some(place) if random.one_in(2) => queue[place] = dead,
        place => queue.insert(place.unwrap_or(0), dead),
    }
}

fn message(tables: &mut Tables, cause: Cause, dead: u8, random: &mut Random) -> Option<()> {
    let name = random.choose(&live(tables))?;
    let mut message = RawMessage { receiver: name, sender: name, kind: 1 + random.below(2) as u8, word: 0 };
    if let Some(place) = place_in(&tables.messages, random).filter(|_| random.one_in(2)) {
        message = tables.messages.remove(place);
    }
    *(if cause == Cause::ReceiverNotLive { &mut message.receiver } else { &mut message.sender }) = dead;
    tables.messages.push(message);
    Some(())
}

fn thread(tables: &mut Tables, cause: Cause, dead: u8, random: &mut Random) -> Option<()> {
    let place = match cause {
        Cause::WantedNotLive => in_states(tables, &[state::RECEIVING], random)?,
        Cause::NoManagerOfTrapped => in_states(tables, &[state::TRAPPED], random)?,
        _ => place_in(&tables.threads, random)?,
    };
    let thread = &mut tables.threads[place];
    match cause {
        Cause::ParentNotLive => thread.parent = dead,
        Cause::WantedNotLive => thread.detail = dead,
        Cause::ManagerNotLive => thread.managers[random.below(3) as usize] = dead,
        Cause::NoManagerOfTrapped => {
            *thread.managers.get_mut(usize::from(thread.detail))? = random.choose(&[NOBODY, GONE])?
        }
        _ => return None,
    }
    Some(())
}
