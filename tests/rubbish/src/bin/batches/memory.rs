//! What a batch is lent beside the tables, between guards.

use nucleus::batch::Batch;
use nucleus::random::Random;
use rubbish::lent::{nucleus_batch, Bytes, Room};
use std::ops::Range;

/// A batch as the library offers it: tables, events, numbers, how many of them, refusal.
pub type Call<'a> = &'a dyn Fn(*mut u32, *mut Bytes, *mut u32, usize, *mut u8);

pub fn library(tables: *mut u32, events: *mut Bytes, numbers: *mut u32, room: usize, refusal: *mut u8) {
    unsafe { nucleus_batch(tables, events, numbers, room, refusal) }
}

/// Numbers on either side of the buffer: more than a decision has, and so many that the buffer is aligned to 4 and not to 8.
const NUMBERS_GUARD: usize = 7;
/// Bytes on either side of the events.
const BYTES_GUARD: usize = 33;
/// Bytes on either side of the refusal.
const REFUSAL_GUARD: usize = 5;
/// In the refusal, and in guards.
const PATTERN: u8 = 0xA5;

#[derive(Clone)]
pub struct Memory {
    bytes: Vec<u8>,
    numbers: Vec<u32>,
    /// The one in the middle is lent.
    events: [Bytes; 3],
    refusal: [u8; 2 * REFUSAL_GUARD + 1],
}

impl Memory {
    /// These events, and a buffer for so many numbers, with anything in it.
    pub fn new(events: &[u8], room: usize, random: &mut Random) -> Memory {
        let mut bytes = vec![PATTERN; events.len() + 2 * BYTES_GUARD];
        bytes[BYTES_GUARD..][..events.len()].copy_from_slice(events);
        let numbers = (0..room + 2 * NUMBERS_GUARD).map(|_| random.bits() as u32).collect();
        // A pointer that may be written through: else the compiler could take it that nothing changed.
        let lent = Bytes { bytes: bytes.as_mut_ptr().wrapping_add(BYTES_GUARD), length: events.len() };
        let beside = Bytes { bytes: lent.bytes, length: usize::MAX };
        Memory { bytes, numbers, events: [beside, lent, beside], refusal: [PATTERN; 2 * REFUSAL_GUARD + 1] }
    }

    /// One call, with this part of the buffer.
    pub fn hand_over(&mut self, call: Call, room: &mut Room, part: Range<usize>) {
        let numbers = self.numbers.as_mut_ptr().wrapping_add(NUMBERS_GUARD + part.start);
        let events = self.events.as_mut_ptr().wrapping_add(1);
        let refusal = self.refusal.as_mut_ptr().wrapping_add(REFUSAL_GUARD);
        call(room.words.as_mut_ptr(), events, numbers, part.len(), refusal);
    }

    /// With the whole buffer.
    pub fn hand_over_all(&mut self, call: Call, room: &mut Room) {
        let all = 0..self.numbers.len() - 2 * NUMBERS_GUARD;
        self.hand_over(call, room, all);
    }

    /// Of the events only so many bytes are lent at first.
    pub fn cut(&mut self, length: usize) {
        self.events[1].length = length;
    }

    /// So many more bytes are lent behind the unread end, where it lies. False if it does not end where the bytes lent before end.
    pub fn lengthen(&mut self, lent: usize, more: usize) -> bool {
        let Some((place, length)) = self.unread() else { return false };
        self.events[1].length += more;
        place + length == lent
    }

    pub fn refusal(&self) -> u8 {
        self.refusal[REFUSAL_GUARD]
    }

    pub fn numbers(&self) -> &[u32] {
        &self.numbers[NUMBERS_GUARD..self.numbers.len() - NUMBERS_GUARD]
    }

    /// Where the unread end begins and its length, if it lies within the events.
    pub fn unread(&self) -> Option<(usize, usize)> {
        self.within(self.events[1])
    }

    fn within(&self, lent: Bytes) -> Option<(usize, usize)> {
        let most = self.bytes.len() - 2 * BYTES_GUARD;
        let place = lent.bytes.addr().checked_sub(self.bytes.as_ptr().addr() + BYTES_GUARD)?;
        (lent.length <= most && place <= most - lent.length).then_some((place, lent.length))
    }

    /// What is to stand here after this batch.
    pub fn after(&self, batch: &Batch) -> Memory {
        let mut after = self.clone();
        after.refusal[REFUSAL_GUARD] = batch.refusal;
        after.numbers[NUMBERS_GUARD..][..batch.numbers.len()].copy_from_slice(&batch.numbers);
        after.events[1].bytes = after.events[1].bytes.wrapping_add(batch.read);
        after.events[1].length -= batch.read;
        after
    }

    /// In what it differs from what is to stand here, if in anything. Addresses differ from run to run, and are not printed.
    pub fn unlike(&self, expected: &Memory) -> Vec<String> {
        let mut wrong = Vec::new();
        if self.refusal() != expected.refusal() {
            wrong.push(format!("the refusal: expected {}, found {}", expected.refusal(), self.refusal()));
        } else if self.refusal != expected.refusal {
            wrong.push("what stands beside the refusal changed".to_string());
        }
        if let Some(place) = first_unlike(&self.numbers, &expected.numbers) {
            let (found, wanted) = (self.numbers[place], expected.numbers[place]);
            let (place, room) = (place as i64 - NUMBERS_GUARD as i64, self.numbers().len());
            wrong.push(format!("the numbers: at {place} of {room} expected {wanted}, found {found}"));
        }
        if self.events[1] != expected.events[1] {
            let [wanted, found] = [expected, self].map(|memory| self.end(memory.events[1]));
            wrong.push(format!("the unread end: expected {wanted}, found {found}"));
        } else if self.events != expected.events {
            wrong.push("what stands beside the lent events changed".to_string());
        }
        if self.bytes != expected.bytes {
            wrong.push("the caller's bytes changed, or those beside".to_string());
        }
        wrong
    }

    fn end(&self, lent: Bytes) -> String {
        match self.within(lent) {
            Some((place, length)) => format!("length {length} from {place} on"),
            None => format!("length {}, and not all are the caller's bytes", lent.length),
        }
    }
}

/// The first place where two rows of one length differ.
pub fn first_unlike(found: &[u32], expected: &[u32]) -> Option<usize> {
    assert_eq!(found.len(), expected.len());
    found.iter().zip(expected).position(|(found, expected)| found != expected)
}
