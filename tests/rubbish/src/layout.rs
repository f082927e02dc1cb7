//! What each word of the lent room says: crates/memory/specs/Layout.antt and crates/words/specs/Saying.antt, said again here.
//!
//! The reader is strict: it knows which words are written for something, and takes no other. It notes which words it looked at. All
//! others say nothing: hints, spare words, an ending's set, a word that is held for no device, and what stands behind a count.

use crate::judge::Ground;
use nucleus::tables::{state, RawHeld, RawMessage, RawThread};
use nucleus::Tables as Numbers;

/// Threads and blocks.
pub type Limits = (u32, u32);
pub const LIMITS: Limits = (20, 20);
/// The words of the lent room.
pub const WORDS: usize = 656;
pub type Words = [u32; WORDS];

/// Places of the head.
pub const THREAD_LIMIT: usize = 0;
pub const BLOCK_LIMIT: usize = 1;
pub const LAST: usize = 2;
const RUNNER: usize = 3;
const SLICE: usize = 4;
const SINCE: usize = 5;
const BEATS: usize = 6;
pub const COUNT: usize = 7;
pub const READIES: usize = 8;
pub const CLOCKS: usize = 9;
pub const LETTERS: usize = 10;
/// The four counts, and what each may be at most.
pub const COUNTS: [(usize, u32); 4] = [(COUNT, 20), (READIES, 20), (CLOCKS, 20), (LETTERS, 40)];

const DEVICES: usize = 48;
const PAST_BYTES: u32 = 256;
const GONE: u32 = 257;
const NOBODY: u8 = 255;

pub fn held_place(device: usize) -> usize {
    16 + 2 * device
}

pub fn thread_place(i: usize) -> usize {
    176 + 16 * i
}

pub fn ready_place(i: usize) -> usize {
    thread_place(i) + 12
}

pub fn clock_place(i: usize) -> usize {
    thread_place(i) + 13
}

/// Messages stand behind as many threads as the limit says.
pub fn message_place(threads: usize, i: usize) -> usize {
    thread_place(threads) + 4 * i
}

// ---- reading

/// The numbers that the words say, in the order in which they stand; and which words were looked at.
pub struct Said {
    pub numbers: Result<Numbers, Ground>,
    pub counts: [bool; WORDS],
}

pub fn read(words: &Words) -> Said {
    let mut reader = Reader { words, counts: [false; WORDS] };
    let numbers = reader.numbers();
    Said { numbers, counts: reader.counts }
}

struct Reader<'a> {
    words: &'a Words,
    counts: [bool; WORDS],
}

impl Reader<'_> {
    fn word(&mut self, place: usize) -> u32 {
        self.counts[place] = true;
        self.words[place]
    }

    fn byte(&mut self, place: usize) -> Result<u8, Ground> {
        u8::try_from(self.word(place)).map_err(|_| Ground::Word)
    }

    /// A name, or 256 for none, which document 01 writes as 255.
    fn name_or_none(&mut self, place: usize) -> Result<u8, Ground> {
        match self.word(place) {
            PAST_BYTES => Ok(NOBODY),
            word => u8::try_from(word).ok().filter(|&name| name < NOBODY).ok_or(Ground::Word),
        }
    }

    /// A name, or 256 for none, or 257 for gone, which document 01 writes as 255 and 254.
    fn manager(&mut self, place: usize) -> Result<u8, Ground> {
        match self.word(place) {
            PAST_BYTES => Ok(255),
            GONE => Ok(254),
            word => u8::try_from(word).ok().filter(|&name| name < 254).ok_or(Ground::Word),
        }
    }

    /// A sender that is not told is written as 0: document 01's number for it.
    fn untold(&mut self, place: usize, sender: u8) -> Result<u8, Ground> {
        if self.word(place) == 0 {
            Ok(sender)
        } else {
            Err(Ground::Word)
        }
    }

    fn numbers(&mut self) -> Result<Numbers, Ground> {
        if (self.word(THREAD_LIMIT), self.word(BLOCK_LIMIT)) != LIMITS {
            return Err(Ground::Limits);
        }
        if COUNTS.iter().any(|&(place, most)| self.word(place) > most) {
            return Err(Ground::Count);
        }
        let counted = |place: usize| 0..self.words[place] as usize;
        let (threads, ready, clock, messages) =
            (counted(COUNT), counted(READIES), counted(CLOCKS), counted(LETTERS));
        let mut numbers = Numbers {
            status: 0,
            name_given_last: self.byte(LAST)?,
            runner: self.name_or_none(RUNNER)?,
            slice: self.byte(SLICE)?,
            ticks_since_beat: self.byte(SINCE)?,
            beats: self.word(BEATS),
            threads: threads.map(|i| self.thread(thread_place(i))).collect::<Result<_, _>>()?,
            ready: ready.map(|i| self.byte(ready_place(i))).collect::<Result<_, _>>()?,
            clock: clock.map(|i| self.byte(clock_place(i))).collect::<Result<_, _>>()?,
            messages: messages.map(|i| self.message(message_place(20, i))).collect::<Result<_, _>>()?,
            held: self.held()?,
        };
        numbers.status = status(&numbers);
        Ok(numbers)
    }

    fn thread(&mut self, at: usize) -> Result<RawThread, Ground> {
        let state = self.byte(at + 2)?;
        let answer_kind = self.byte(at + 8)?;
        Ok(RawThread {
            name: self.byte(at)?,
            parent: self.name_or_none(at + 1)?,
            state,
            detail: if state == state::RECEIVING { self.name_or_none(at + 3)? } else { self.byte(at + 3)? },
            managers: [self.manager(at + 4)?, self.manager(at + 5)?, self.manager(at + 6)?],
            count: self.word(at + 7),
            answer_kind,
            answer_sender: match answer_kind {
                0 => self.untold(at + 9, 255)?,
                4 => self.untold(at + 9, 254)?,
                _ => self.byte(at + 9)?,
            },
            answer_word: self.word(at + 10),
        })
    }

    /// A notice has 256 added to its sender.
    fn message(&mut self, at: usize) -> Result<RawMessage, Ground> {
        let receiver = self.byte(at)?;
        let sender = self.word(at + 1);
        let kind = match sender / PAST_BYTES {
            0 => 1,
            1 => 2,
            _ => return Err(Ground::Word),
        };
        Ok(RawMessage { receiver, sender: sender as u8, kind, word: self.word(at + 2) })
    }

    fn held(&mut self) -> Result<Vec<RawHeld>, Ground> {
        let mut held = Vec::new();
        for device in 0..DEVICES {
            match self.word(held_place(device)) {
                0 => {}
                1 => held.push(RawHeld { device: device as u8, word: self.word(held_place(device) + 1) }),
                _ => return Err(Ground::Word),
            }
        }
        Ok(held)
    }
}

/// Lent tables have no status: it is what Dispatch says.
fn status(numbers: &Numbers) -> u8 {
    let waits = |thread: &RawThread| thread.state == state::CLOCK || thread.state == state::DEVICE;
    match numbers.runner {
        NOBODY if numbers.threads.is_empty() => 2,
        NOBODY if numbers.threads.iter().any(waits) => 1,
        NOBODY => 3,
        _ => 0,
    }
}

// ---- writing

/// Writes the words that say something, for any numbers. Rows that find no place are only counted, and a number that no word says is
/// written as one that the reader does not take.
pub fn put(words: &mut Words, numbers: &Numbers, limits: Limits) {
    let most = limits.0 as usize;
    let runner = or_none(numbers.runner);
    let sizes = [&numbers.ready, &numbers.clock].map(|row| row.len() as u32);
    let head = [
        limits.0,
        limits.1,
        numbers.name_given_last.into(),
        runner,
        numbers.slice.into(),
        numbers.ticks_since_beat.into(),
    ];
    words[..6].copy_from_slice(&head);
    words[BEATS] = numbers.beats;
    words[COUNT] = numbers.threads.len() as u32;
    words[READIES] = sizes[0];
    words[CLOCKS] = sizes[1];
    words[LETTERS] = numbers.messages.len() as u32;
    (0..DEVICES).for_each(|device| words[held_place(device)] = 0);
    for held in &numbers.held {
        let at = held_place(usize::from(held.device) % DEVICES);
        words[at] = if usize::from(held.device) < DEVICES { 1 } else { held.device.into() };
        words[at + 1] = held.word;
    }
    for (i, thread) in numbers.threads.iter().enumerate().take(most) {
        put_row(words, thread_place(i), &thread_words(thread));
    }
    for (i, &name) in numbers.ready.iter().enumerate().take(most) {
        put_row(words, ready_place(i), &[name.into()]);
    }
    for (i, &name) in numbers.clock.iter().enumerate().take(most) {
        put_row(words, clock_place(i), &[name.into()]);
    }
    for (i, message) in numbers.messages.iter().enumerate() {
        put_row(words, message_place(most, i), &message_words(message));
    }
}

fn put_row(words: &mut Words, at: usize, row: &[u32]) {
    if let Some(place) = words.get_mut(at..at + row.len()) {
        place.copy_from_slice(row);
    }
}

fn or_none(name: u8) -> u32 {
    if name == NOBODY {
        PAST_BYTES
    } else {
        name.into()
    }
}

fn manager_word(manager: u8) -> u32 {
    match manager {
        255 => PAST_BYTES,
        254 => GONE,
        name => name.into(),
    }
}

/// 0 for the sender that is not told; another one is none that is written.
fn untold_word(sender: u8, usual: u8) -> u32 {
    if sender == usual {
        0
    } else {
        u32::from(sender) + 1
    }
}

fn thread_words(t: &RawThread) -> [u32; 11] {
    let detail = if t.state == state::RECEIVING { or_none(t.detail) } else { t.detail.into() };
    let sender = match t.answer_kind {
        0 => untold_word(t.answer_sender, 255),
        4 => untold_word(t.answer_sender, 254),
        _ => t.answer_sender.into(),
    };
    let [program, tlb, sysbp] = t.managers.map(manager_word);
    let kind = t.answer_kind.into();
    [
        t.name.into(),
        or_none(t.parent),
        t.state.into(),
        detail,
        program,
        tlb,
        sysbp,
        t.count,
        kind,
        sender,
        t.answer_word,
    ]
}

/// Kinds 1 and 2 have a word each; what would be another kind has a word that is not written.
fn message_words(m: &RawMessage) -> [u32; 3] {
    [m.receiver.into(), u32::from(m.sender) + PAST_BYTES * u32::from(m.kind.wrapping_sub(1)), m.word]
}
