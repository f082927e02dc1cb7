//! 17: values outside their range.

use super::{over, place_in};
use crate::breaks::{in_order, in_states, live};
use crate::fault::Cause;
use crate::numbers::{BEAT, DEVICES, KINDS, NAMES, NOBODY, SLICE, SSI};
use crate::random::Random;
use crate::tables::{state, RawHeld, RawMessage, RawThread, Tables};

pub fn spoil(tables: &mut Tables, cause: Cause, random: &mut Random) -> Option<()> {
    match cause {
        Cause::Status => tables.status = over(4, random),
        Cause::GivenLast => tables.name_given_last = over(NAMES, random),
        Cause::Runner => (tables.runner, tables.slice) = (NAMES, 1 + random.below(SLICE.into()) as u8),
        Cause::SliceOfRunner if tables.has_runner() => {
            tables.slice = if random.one_in(2) { 0 } else { over(SLICE + 1, random) }
        }
        Cause::SliceOfNobody if !tables.has_runner() => tables.slice = over(1, random),
        Cause::TicksSinceBeat => tables.ticks_since_beat = over(BEAT, random),
        Cause::ReadyName => put_name(&mut tables.ready, random),
        Cause::ClockName => put_name(&mut tables.clock, random),
        Cause::HeldDevice => {
            tables.held.push(RawHeld { device: over(DEVICES, random), word: random.bits() as u32 })
        }
        Cause::MessageReceiver | Cause::MessageSender | Cause::MessageKind => message(tables, cause, random)?,
        _ => thread(tables, cause, random)?,
    }
    in_order(tables);
    Some(())
}

/// In place of another one, or beside them.
fn put_name(queue: &mut Vec<u8>, random: &mut Random) {
    let name = over(NAMES, random);
    match place_in(queue, random) {
        Some(place) if random.one_in(2) => queue[place] = name,
        place => queue.insert(place.unwrap_or(0), name),
    }
}

fn message(tables: &mut Tables, cause: Cause, random: &mut Random) -> Option<()> {
    let name = random.choose(&live(tables))?;
    let mut message = RawMessage { receiver: name, sender: name, kind: 1, word: 0 };
    if let Some(place) = place_in(&tables.messages, random).filter(|_| random.one_in(2)) {
        message = tables.messages.remove(place);
    }
    match cause {
        Cause::MessageReceiver => message.receiver = over(NAMES, random),
        Cause::MessageSender => message.sender = over(NAMES, random),
        _ => message.kind = random.choose(&[0, 3, 4, 5, 255])?,
    }
    tables.messages.push(message);
    Some(())
}

fn thread(tables: &mut Tables, cause: Cause, random: &mut Random) -> Option<()> {
    let place = match cause {
        Cause::Detail(state) => in_states(tables, &[state], random)?,
        _ => place_in(&tables.threads, random)?,
    };
    let thread = &mut tables.threads[place];
    match cause {
        Cause::ThreadName => thread.name = over(NAMES, random),
        Cause::Parent => thread.parent = NAMES,
        Cause::State => thread.state = over(6, random),
        Cause::Detail(_) => thread.detail = wrong_detail(thread.state, random),
        Cause::AnswerKind => thread.answer_kind = over(5, random),
        Cause::AnswerSender(kind) => answer(thread, kind, wrong_sender(kind, random)?, 0),
        Cause::AnswerWord(0) => answer(thread, 0, NOBODY, 1 + random.below(9) as u32),
        Cause::AnswerWord(kind) => {
            answer(thread, kind, random.below(NAMES.into()) as u8, 1 << random.below(32))
        }
        _ => return None,
    }
    Some(())
}

fn answer(thread: &mut RawThread, kind: u8, sender: u8, word: u32) {
    (thread.answer_kind, thread.answer_sender, thread.answer_word) = (kind, sender, word);
}

fn wrong_sender(kind: u8, random: &mut Random) -> Option<u8> {
    let name = random.below(NAMES.into()) as u8;
    match kind {
        0 => random.choose(&[0, name, SSI]),
        4 => random.choose(&[0, name, NOBODY]),
        _ => random.choose(&[SSI, NOBODY]),
    }
}

fn wrong_detail(of: u8, random: &mut Random) -> u8 {
    match of {
        state::RECEIVING => NAMES,
        state::DEVICE => over(DEVICES, random),
        state::TRAPPED => over(KINDS, random),
        _ => over(1, random),
    }
}
