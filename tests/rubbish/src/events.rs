//! Events for lent tables, good or spoilt: well-formed ones and malformed ones.

use crate::layout::{self, Words};
use nucleus::event::bytes;
use nucleus::random::Random;
use nucleus::tables::state;
use nucleus::Tables as Numbers;

/// What an event may name.
pub struct Known {
    names: Vec<u8>,
    /// Those waited for.
    devices: Vec<u8>,
}

impl Known {
    pub fn of(numbers: &Numbers) -> Known {
        let waiters = numbers.threads.iter().filter(|thread| thread.state == state::DEVICE);
        let devices = waiters.map(|thread| thread.detail).collect();
        Known { names: numbers.threads.iter().map(|thread| thread.name).collect(), devices }
    }

    /// What stands in the threads' records, whatever it is.
    pub fn in_words(words: &Words) -> Known {
        let places: Vec<usize> = (0..words[layout::COUNT].min(20) as usize).map(layout::thread_place).collect();
        let waiters = places.iter().filter(|&&at| words[at + 2] == state::DEVICE.into());
        let devices = waiters.map(|&at| words[at + 3] as u8).collect();
        Known { names: places.iter().map(|&at| words[at] as u8).collect(), devices }
    }

    /// A name of these, or seldom any byte.
    fn name(&self, random: &mut Random) -> u8 {
        match random.choose(&self.names) {
            Some(name) if !random.one_in(8) => name,
            _ => random.choose(&[0, 253, 254, 255]).filter(|_| random.one_in(2)).unwrap_or(random.byte()),
        }
    }

    fn device(&self, random: &mut Random) -> u8 {
        random.choose(&self.devices).filter(|_| random.one_in(2)).unwrap_or(random.below(48) as u8)
    }
}

/// Mostly good; else malformed, empty or long.
pub fn any(known: &Known, random: &mut Random) -> Vec<u8> {
    match random.below(20) {
        0..=14 => good(known, random),
        15 => Vec::new(),
        16 if random.one_in(20) => long(random),
        _ => malformed(known, random),
    }
}

/// One well-formed field with values in their ranges. Its names and devices are mostly known ones.
pub fn good(known: &Known, random: &mut Random) -> Vec<u8> {
    match random.below(12) {
        0..=2 => bytes::send(known.name(random), word(random)),
        3 => bytes::receive(255),
        4 => bytes::receive(known.name(random)),
        5 => bytes::request(1 + random.below(2) as u8, 0),
        6 => bytes::request(3 + random.below(4) as u8, known.name(random)),
        7 => bytes::request(7 + random.below(2) as u8, 0),
        8 => bytes::request(9, known.device(random)),
        9 => bytes::trap(random.below(3) as u8, word(random)),
        10 => bytes::interrupt(1 << known.device(random).min(63) | 1 << random.below(48), word(random)),
        _ => bytes::tick(),
    }
}

/// Decisions are common.
fn word(random: &mut Random) -> u32 {
    random.choose(&[0, 0, 1, 1, 2, u32::MAX]).filter(|_| random.one_in(2)).unwrap_or(random.bits() as u32)
}

/// A good field with a byte lost, added or changed, bytes of any kind, or a value out of its range.
fn malformed(known: &Known, random: &mut Random) -> Vec<u8> {
    let mut event = good(known, random);
    match random.below(6) {
        0 => drop(event.pop()),
        1 => event.push(random.byte()),
        2 => {
            let place = random.below(event.len() as u64) as usize;
            event[place] = random.byte();
        }
        3 => event = (0..random.below(30)).map(|_| random.byte()).collect(),
        4 => event = bytes::request(random.byte(), random.byte()),
        _ => event = bytes::interrupt(random.bits(), word(random)),
    }
    event
}

/// The longest fields there are, whole, cut off, or with bytes behind.
fn long(random: &mut Random) -> Vec<u8> {
    let mut event = vec![16 + random.below(6) as u8, 255, 255];
    event.resize(65_538 + random.below(3) as usize - 1, random.byte());
    event
}
