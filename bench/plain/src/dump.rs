//! The dump's writer. Its length follows from the counts, so a short buffer is refused before a byte is written.

use crate::numbers::refusal;
use crate::threads::{Held, Message, Thread};
use crate::Plain;

impl Plain {
    /// The length of the dump, or refusal 12. Bytes behind the dump stay.
    pub fn dump(&self, buffer: &mut [u8]) -> Result<usize, u8> {
        let length = self.dump_length();
        let mut rest = buffer.get_mut(..length).ok_or(refusal::SHORT_BUFFER)?;
        rest = put(rest, &self.head());
        for thread in self.threads.iter() {
            rest = put(rest, &thread_field(thread));
        }
        rest = put_names(rest, 3, &self.ready);
        rest = put_names(rest, 4, &self.clock);
        for message in self.messages.iter() {
            rest = put(rest, &message_field(message));
        }
        for held in self.held.iter() {
            rest = put(rest, &held_field(held));
        }
        debug_assert!(rest.is_empty());
        Ok(length)
    }

    /// Tag and length are 3 bytes of each field.
    fn dump_length(&self) -> usize {
        12 + 20 * self.threads.len() + 3 + self.ready.len() + 3 + self.clock.len() + 10 * self.messages.len() + 8 * self.held.len()
    }

    fn head(&self) -> [u8; 12] {
        let [a, b, c, d] = self.beats.to_be_bytes();
        [1, 0, 9, self.status(), self.last, self.runner, self.slice, self.since, a, b, c, d]
    }
}

/// Each field is written into the rest of the buffer behind the last one.
fn put<'a, const N: usize>(rest: &'a mut [u8], field: &[u8; N]) -> &'a mut [u8] {
    let (place, rest) = rest.split_at_mut(N);
    place.copy_from_slice(field);
    rest
}

/// A queue has 20 names at most, so its length is one byte and a 0 before it.
fn put_names<'a>(rest: &'a mut [u8], tag: u8, names: &[u8]) -> &'a mut [u8] {
    let rest = put(rest, &[tag, 0, names.len() as u8]);
    let (place, rest) = rest.split_at_mut(names.len());
    place.copy_from_slice(names);
    rest
}

fn thread_field(thread: &Thread) -> [u8; 20] {
    let (state, detail) = thread.state.numbers();
    let [program, tlb, sysbp] = thread.managers;
    let [a, b, c, d] = thread.ticks.to_be_bytes();
    let [e, f, g, h] = thread.answer.word.to_be_bytes();
    let (kind, sender) = (thread.answer.kind, thread.answer.sender);
    [2, 0, 17, thread.name, thread.parent, state, detail, program, tlb, sysbp, a, b, c, d, kind, sender, e, f, g, h]
}

fn message_field(message: &Message) -> [u8; 10] {
    let [a, b, c, d] = message.word.to_be_bytes();
    [5, 0, 7, message.to, message.from, message.kind, a, b, c, d]
}

fn held_field(held: &Held) -> [u8; 8] {
    let [a, b, c, d] = held.word.to_be_bytes();
    [6, 0, 5, held.device, a, b, c, d]
}
