//! A batch (document 02, request 2): the complete fields of some bytes, in order, and the numbers of each decision into a buffer. A field
//! that is cut short is not run. What is handed back is the unread end of the bytes.
//!
//! The fields are walked twice: the room is counted before anything else is done.

use crate::numbers::refusal;
use crate::{Decision, Plain};

/// The numbers of a decision.
pub const DECISION: usize = 6;

impl Plain {
    /// On rows that are kept, and known to meet the table rules. Refusal 14 if the buffer is too short; nothing is run then.
    pub fn batch<'a>(&mut self, events: &'a [u8], out: &mut [u32]) -> Result<&'a [u8], u8> {
        has_room(events, out)?;
        Ok(run(events, out, |field| self.step(field)))
    }

    /// The same with the rows checked where they stand, before the first event.
    pub fn batch_checked<'a>(&mut self, events: &'a [u8], out: &mut [u32]) -> Result<&'a [u8], u8> {
        has_room(events, out)?;
        if !self.meets_rules() {
            return Ok(run(events, out, |_| Decision::NO_TABLES));
        }
        Ok(run(events, out, |field| self.step(field)))
    }
}

/// Whether the buffer holds the decisions of all complete fields; else refusal 14.
pub(crate) fn has_room(events: &[u8], out: &[u32]) -> Result<(), u8> {
    let complete = std::iter::successors(cut(events), |(_, behind)| cut(behind)).count();
    if out.len() / DECISION < complete {
        return Err(refusal::NO_ROOM);
    }
    Ok(())
}

/// Every complete field by this step. Numbers behind the last decision stay.
pub(crate) fn run<'a>(events: &'a [u8], out: &mut [u32], mut step: impl FnMut(&[u8]) -> Decision) -> &'a [u8] {
    let mut rest = events;
    for numbers in out.chunks_exact_mut(DECISION) {
        let Some((field, behind)) = cut(rest) else { break };
        numbers.copy_from_slice(&step(field).numbers());
        rest = behind;
    }
    rest
}

/// The first field, if it is complete, and what stands behind it.
fn cut(bytes: &[u8]) -> Option<(&[u8], &[u8])> {
    let &[_, high, low, ..] = bytes else { return None };
    bytes.split_at_checked(3 + usize::from(u16::from_be_bytes([high, low])))
}

#[cfg(test)]
mod tests {
    use super::*;
    use crate::threads::{Held, Message, State};

    const TICK: [u8; 3] = [20, 0, 0];

    /// Rows cannot be broken from outside, so this stands here. One table rule is broken in each.
    #[test]
    fn broken_rows_are_refused() {
        let breaks: [fn(&mut Plain); 10] = [
            |plain| plain.last = 254,
            |plain| plain.since = 20,
            |plain| plain.slice = 0,
            |plain| plain.runner = 1,
            |plain| plain.ready.push(0),
            |plain| plain.clock.push(0),
            |plain| plain.threads[0].state = State::Ready,
            |plain| plain.threads[0].managers[0] = 0,
            |plain| plain.messages.push(Message { to: 0, from: 7, kind: 1, word: 0 }),
            |plain| plain.held.push(Held { device: 48, word: 0 }),
        ];
        for (number, break_it) in breaks.iter().enumerate() {
            let mut plain = Plain::start();
            assert!(plain.meets_rules());
            break_it(&mut plain);
            let mut out = [7; 13];
            assert_eq!(plain.batch_checked(&[TICK, TICK].concat(), &mut out), Ok(&[][..]), "break {number}");
            assert_eq!(out, [11, 255, 255, 0, 255, 0, 11, 255, 255, 0, 255, 0, 7], "break {number}");
            assert_eq!((plain.since == 20, plain.beats), (number == 1, 0), "break {number}: a tick was run");
            assert_eq!(plain.batch_checked(&TICK, &mut out[..5]), Err(14), "14 comes before 11");
        }
    }
}
