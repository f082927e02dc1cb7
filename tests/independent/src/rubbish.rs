//! Event files that look at nothing: plain rubbish, and rubbish that has the form of events.

use crate::event::{bytes, TAGS};
use crate::generator::{Form, Generator};
use crate::random::Random;

/// The kinds of rubbish; each seed gives one after the other.
#[derive(Clone, Copy, Debug, PartialEq, Eq)]
pub enum Rubbish {
    /// Any bytes.
    Bytes,
    /// Bytes from a few values, so that lengths are short.
    SmallBytes,
    /// One byte over and over.
    OneByte,
    /// Fields of any tag with a short value.
    Fields,
    /// Events with the right length and any value.
    Events,
    /// Events whose length is off by one.
    Lengths,
    /// Good events with some bytes changed, lost or added, so that all behind them shifts.
    Shifted,
    /// The longest fields there are, between ticks.
    Long,
}

pub const KINDS: [Rubbish; 8] = [
    Rubbish::Bytes,
    Rubbish::SmallBytes,
    Rubbish::OneByte,
    Rubbish::Fields,
    Rubbish::Events,
    Rubbish::Lengths,
    Rubbish::Shifted,
    Rubbish::Long,
];

pub fn kind_of(seed: u64) -> Rubbish {
    KINDS[(seed % KINDS.len() as u64) as usize]
}

/// A file of rubbish.
pub fn file(seed: u64) -> Vec<u8> {
    let mut random = Random::new(seed);
    let size = 1 + random.below(3_000);
    match kind_of(seed) {
        Rubbish::Bytes => (0..size * 8).map(|_| random.byte()).collect(),
        Rubbish::SmallBytes => (0..size).map(|_| small_byte(&mut random)).collect(),
        Rubbish::OneByte => {
            vec![random.choose(&[0, 1, 0x10, 0x11, 0x12, 0x14, 0x15, 0xFF]).unwrap_or(0); size as usize]
        }
        Rubbish::Fields => (0..size / 4).flat_map(|_| any_field(&mut random)).collect(),
        Rubbish::Events => (0..size / 4).flat_map(|_| event(&mut random, 0)).collect(),
        Rubbish::Lengths => (0..size / 4).flat_map(|_| event_off_by_one(&mut random)).collect(),
        Rubbish::Shifted => shifted(&mut random, size / 4),
        Rubbish::Long => long_fields(&mut random),
    }
}

fn small_byte(random: &mut Random) -> u8 {
    random.choose(&[0, 0, 0, 0, 0, 1, 2, 3, 5, 16, 17, 18, 19, 20, 20, 21, 255]).unwrap_or(0)
}

fn any_field(random: &mut Random) -> Vec<u8> {
    let tag = random.byte();
    let value: Vec<u8> = (0..random.below(20)).map(|_| random.byte()).collect();
    bytes::field(tag, &value)
}

/// An event with this much more to its value. Names are mostly small, else hardly any would be live.
fn event(random: &mut Random, more: usize) -> Vec<u8> {
    let facts = &TAGS[random.below(TAGS.len() as u64) as usize];
    let value: Vec<u8> = (0..facts.length + more)
        .map(|_| if random.one_in(4) { random.byte() } else { random.below(10) as u8 })
        .collect();
    bytes::field(facts.tag, &value)
}

fn event_off_by_one(random: &mut Random) -> Vec<u8> {
    match random.below(3) {
        0 => event(random, 1),
        1 => {
            // The length says one more than there is, and takes the next tag with it.
            let mut field = event(random, 0);
            field[2] += 1;
            field
        }
        _ => event(random, 0),
    }
}

fn shifted(random: &mut Random, events: u64) -> Vec<u8> {
    let mut generator = Generator::new(random.bits(), events + 20, Form::Stream);
    let mut file = Vec::new();
    while let Some((event, _)) = generator.next_event() {
        file.extend(event);
    }
    for _ in 0..1 + random.below(4) {
        let place = random.below(file.len() as u64) as usize;
        match random.below(3) {
            0 => file[place] = random.byte(),
            1 => file.insert(place, random.byte()),
            _ if file.len() > 1 => drop(file.remove(place)),
            _ => {}
        }
    }
    file
}

fn long_fields(random: &mut Random) -> Vec<u8> {
    let mut file = Vec::new();
    for _ in 0..1 + random.below(4) {
        let length = 65_535 - random.below(3);
        let value: Vec<u8> = (0..length).map(|_| random.byte()).collect();
        file.extend(bytes::field(random.byte(), &value));
        file.extend(bytes::tick());
    }
    let kept = file.len() - random.below(6) as usize;
    file.truncate(kept);
    file
}
