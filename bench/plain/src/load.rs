//! The dump's reader. It takes no field but as the writer gives it: the order of tags, every length, the order of rows (a table rule here)
//! and the status. Nothing is lost on the way into the rows, so what passes is what the writer gives, and need not be written again. Bytes
//! that do not pass are no dump: only then is it asked why (`fault`).

use crate::fault::{fault, Bad};
use crate::numbers::{DEVICES, MESSAGES, THREADS};
use crate::row::Row;
use crate::threads::{Held, Message, State, Thread};
use crate::{Answer, Plain};

pub fn load(bytes: &[u8]) -> Result<Plain, Bad> {
    let mut plain = Plain::EMPTY;
    match plain.read_dump(bytes) {
        Some(()) => Ok(plain),
        None => Err(fault(bytes)),
    }
}

impl Plain {
    /// Into empty rows. None if the bytes are no dump.
    fn read_dump(&mut self, bytes: &[u8]) -> Option<()> {
        let (&[1, 0, 9, status, last, runner, slice, since, a, b, c, d], mut rest) = bytes.split_first_chunk()? else {
            return None;
        };
        self.last = last;
        self.runner = runner;
        self.slice = slice;
        self.since = since;
        self.beats = u32::from_be_bytes([a, b, c, d]);
        rest = threads(rest, &mut self.threads)?;
        rest = names(rest, 3, &mut self.ready)?;
        rest = names(rest, 4, &mut self.clock)?;
        rest = messages(rest, &mut self.messages)?;
        rest = held_words(rest, &mut self.held)?;
        (rest.is_empty() && status == self.status() && self.meets_rules()).then_some(())
    }
}

/// A field that is none of these ends the row, and the next reader refuses it.
#[rustfmt::skip]
fn threads<'a>(mut rest: &'a [u8], row: &mut Row<Thread, THREADS>) -> Option<&'a [u8]> {
    while let Some((
        &[2, 0, 17, name, parent, state, detail, program, tlb, sysbp, a, b, c, d, kind, sender, e, f, g, h], behind,
    )) = rest.split_first_chunk() {
        row.try_push(Thread {
            name,
            parent,
            state: State::from_numbers(state, detail)?,
            managers: [program, tlb, sysbp],
            ticks: u32::from_be_bytes([a, b, c, d]),
            answer: Answer { kind, sender, word: u32::from_be_bytes([e, f, g, h]) },
        })?;
        rest = behind;
    }
    Some(rest)
}

fn names<'a>(rest: &'a [u8], tag: u8, row: &mut Row<u8, THREADS>) -> Option<&'a [u8]> {
    let (&[found, 0, length], rest) = rest.split_first_chunk()? else { return None };
    let (names, rest) = rest.split_at_checked(length.into())?;
    if found != tag {
        return None;
    }
    for &name in names {
        row.try_push(name)?;
    }
    Some(rest)
}

fn messages<'a>(mut rest: &'a [u8], row: &mut Row<Message, MESSAGES>) -> Option<&'a [u8]> {
    while let Some((&[5, 0, 7, to, from, kind, a, b, c, d], behind)) = rest.split_first_chunk() {
        row.try_push(Message { to, from, kind, word: u32::from_be_bytes([a, b, c, d]) })?;
        rest = behind;
    }
    Some(rest)
}

fn held_words<'a>(mut rest: &'a [u8], row: &mut Row<Held, DEVICES>) -> Option<&'a [u8]> {
    while let Some((&[6, 0, 5, device, a, b, c, d], behind)) = rest.split_first_chunk() {
        row.try_push(Held { device, word: u32::from_be_bytes([a, b, c, d]) })?;
        rest = behind;
    }
    Some(rest)
}
