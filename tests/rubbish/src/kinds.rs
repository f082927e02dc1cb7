//! The kinds of tables that are lent.

use crate::judge;
use crate::layout::{self, Limits, Words, COUNTS, WORDS};
use crate::lent::Room;
use crate::plausible;
use crate::rows;
use crate::source::Source;
use nucleus::breaks::{break_rule, RULES};
use nucleus::dump;
use nucleus::random::Random;
use std::fmt;

#[derive(Clone, Copy, Debug, PartialEq, Eq)]
pub enum Kind {
    AllBits,
    Counts,
    Ranges,
    EveryBit,
    OneBit,
    FewBits,
    FewWords,
    Rows,
    Edges,
    Limits,
    Rule,
    Silent,
}

pub const KINDS: [Kind; 12] = [
    Kind::AllBits,
    Kind::Counts,
    Kind::Ranges,
    Kind::EveryBit,
    Kind::OneBit,
    Kind::FewBits,
    Kind::FewWords,
    Kind::Rows,
    Kind::Edges,
    Kind::Limits,
    Kind::Rule,
    Kind::Silent,
];

impl fmt::Display for Kind {
    fn fmt(&self, out: &mut fmt::Formatter) -> fmt::Result {
        out.pad(match self {
            Kind::AllBits => "all bits random",
            Kind::Counts => "random, limits and counts right",
            Kind::Ranges => "random, numbers in their ranges",
            Kind::EveryBit => "each bit of whole tables flipped",
            Kind::OneBit => "one bit of a word that counts flipped",
            Kind::FewBits => "two to six bits flipped",
            Kind::FewWords => "one to five words set to anything",
            Kind::Rows => "rows swapped, copied, put in, lost",
            Kind::Edges => "one to three words at an edge",
            Kind::Limits => "other limits",
            Kind::Rule => "one table rule broken",
            Kind::Silent => "rubbish where a word says nothing",
        })
    }
}

/// The bits of the lent room.
pub const BITS: u64 = WORDS as u64 * 32;

/// So many tables are tried beside one dump.
const DUMP_FOR: u64 = 8;

/// Tables whose bits are flipped one after the other.
pub struct Whole {
    room: Room,
    /// Which words count.
    pub counts: [bool; WORDS],
    pub dump: Vec<u8>,
}

impl Whole {
    fn of(room: Room) -> Whole {
        let said = room.read();
        Whole { room, counts: said.counts, dump: judge::written(&said).unwrap_or_default() }
    }
}

pub struct Maker {
    source: Source,
    pub whole: Whole,
    dump: Vec<u8>,
}

impl Maker {
    pub fn new(seed: u64) -> Maker {
        Maker { source: Source::new(seed), whole: Whole::of(Room::filled(|| 0)), dump: Vec::new() }
    }

    /// A dump to be damaged.
    pub fn dump(&mut self, number: u64) -> &[u8] {
        if number % DUMP_FOR == 0 {
            self.dump = dump::write(&self.source.tables());
        }
        &self.dump
    }

    /// The next one of a kind; `number` counts those of the kind from 0.
    pub fn room(&mut self, kind: Kind, number: u64) -> Room {
        match kind {
            Kind::AllBits => any_bits(self.source.random()),
            Kind::Counts => any_with_counts(self.source.random()),
            Kind::Ranges => Room::of(&plausible::numbers(self.source.random()), || 0),
            Kind::EveryBit => self.with_next_bit(number),
            Kind::Limits => self.with_other_limits(),
            Kind::Rule => self.with_broken_rule(),
            Kind::Silent => self.good(),
            _ => {
                let mut room = self.good();
                spoil(&mut room.words, kind, self.source.random());
                room
            }
        }
    }

    /// Tables that meet the rules, with words of some kind where a word says nothing: small ones would be hints that lead astray.
    fn good(&mut self) -> Room {
        let numbers = self.source.tables();
        let random = self.source.random();
        match random.below(4) {
            0 => Room::of(&numbers, || 0),
            1 => Room::of(&numbers, || u32::MAX),
            2 => Room::of(&numbers, || random.below(24) as u32),
            _ => Room::of(&numbers, || random.bits() as u32),
        }
    }

    fn with_next_bit(&mut self, number: u64) -> Room {
        if number % BITS == 0 {
            let numbers = self.source.telling_tables(number / BITS);
            let random = self.source.random();
            self.whole = Whole::of(Room::of(&numbers, || random.below(24) as u32));
        }
        let mut room = self.whole.room;
        flip(&mut room.words, number % BITS);
        room
    }

    /// Good tables whose head has other limits, or which are laid out for other limits.
    fn with_other_limits(&mut self) -> Room {
        let numbers = self.source.tables();
        let random = self.source.random();
        let mut room = Room::of(&numbers, || random.below(24) as u32);
        let limits = other_limits(random);
        if random.one_in(2) && limits.0 < 30 {
            layout::put(&mut room.words, &numbers, limits);
        } else {
            (room.words[layout::THREAD_LIMIT], room.words[layout::BLOCK_LIMIT]) = limits;
        }
        room
    }

    /// Not the rule on status, which lent tables do not have.
    fn with_broken_rule(&mut self) -> Room {
        loop {
            let mut numbers = self.source.tables();
            let random = self.source.random();
            let rule = RULES[random.below(RULES.len() as u64) as usize];
            if rule != nucleus::Rule::Status && break_rule(&mut numbers, rule, random).is_some() {
                return Room::of(&numbers, || random.bits() as u32);
            }
        }
    }
}

fn any_bits(random: &mut Random) -> Room {
    Room::filled(|| random.bits() as u32)
}

fn any_with_counts(random: &mut Random) -> Room {
    let mut room = any_bits(random);
    (room.words[layout::THREAD_LIMIT], room.words[layout::BLOCK_LIMIT]) = layout::LIMITS;
    for (place, most) in COUNTS {
        room.words[place] = random.below(u64::from(most) + 1) as u32;
    }
    room
}

/// Fewer threads and more blocks, as the room has place for; at an edge; or any small ones. Never 20 and 20.
fn other_limits(random: &mut Random) -> Limits {
    let edges = [0, 1, 2, 19, 20, 20, 20, 21, 24, 25, 40, 253, 254, 255, 256, 65_535, 65_536, 1 << 31, u32::MAX];
    loop {
        let limits = match random.below(3) {
            0 => (random.choose(&[19, 18, 16]).unwrap_or(0), random.choose(&[25, 30, 40]).unwrap_or(0)),
            1 => (random.choose(&edges).unwrap_or(0), random.choose(&edges).unwrap_or(0)),
            _ => (random.below(40) as u32, random.below(40) as u32),
        };
        if limits != layout::LIMITS {
            return limits;
        }
    }
}

fn spoil(words: &mut Words, kind: Kind, random: &mut Random) {
    match kind {
        Kind::OneBit => flip_telling(words, random),
        Kind::FewBits => (0..2 + random.below(5)).for_each(|_| flip_any(words, random)),
        Kind::FewWords => (0..1 + random.below(5)).for_each(|_| set_any(words, random)),
        Kind::Rows => rows::spoil(words, random),
        _ => (0..1 + random.below(3)).for_each(|_| set_edge(words, random)),
    }
}

fn flip(words: &mut Words, bit: u64) {
    words[(bit / 32) as usize] ^= 1 << (bit % 32);
}

/// A word that counts, as far as the words can be read.
fn telling_place(words: &Words, random: &mut Random) -> usize {
    let counts = layout::read(words).counts;
    let places: Vec<usize> = (0..WORDS).filter(|&place| counts[place]).collect();
    random.choose(&places).unwrap_or(0)
}

/// Mostly one of the last nine bits, in which most words differ.
fn flip_telling(words: &mut Words, random: &mut Random) {
    let bits = if random.one_in(4) { 32 } else { 9 };
    words[telling_place(words, random)] ^= 1 << random.below(bits);
}

fn flip_any(words: &mut Words, random: &mut Random) {
    if random.one_in(2) {
        flip(words, random.below(BITS));
    } else {
        flip_telling(words, random);
    }
}

/// To any number, a small one, or what another word is.
fn set_any(words: &mut Words, random: &mut Random) {
    let place = telling_place(words, random);
    words[place] = match random.below(3) {
        0 => random.bits() as u32,
        1 => random.below(260) as u32,
        _ => words[telling_place(words, random)],
    };
}

const EDGES: [u32; 28] = [
    0, 1, 2, 3, 4, 5, 6, 19, 20, 21, 39, 40, 41, 47, 48, 49, 252, 253, 254, 255, 256, 257, 258, 511, 512, 65536,
    2147483648, 4294967295,
];

/// A count; one of the name given last, the runner, its slice and the ticks since the beat; a word for no name, which a dump has as 255 or
/// 254; or any word that counts.
fn set_edge(words: &mut Words, random: &mut Random) {
    let edge = EDGES[random.below(EDGES.len() as u64) as usize];
    match random.below(6) {
        0 => {
            let (place, most) = COUNTS[random.below(4) as usize];
            let near = [words[place].wrapping_sub(1), words[place].wrapping_add(1), most, most + 1, edge];
            words[place] = random.choose(&near).unwrap_or(0);
        }
        1 => words[layout::LAST + random.below(4) as usize] = edge,
        2 => {
            let counts = layout::read(words).counts;
            let no_name = |&place: &usize| counts[place] && (256..258).contains(&words[place]);
            let places: Vec<usize> = (0..WORDS).filter(no_name).collect();
            if let Some(place) = random.choose(&places) {
                words[place] = random.choose(&[0, 254, 255, 256, 257, 258]).unwrap_or(0);
            }
        }
        _ => words[telling_place(words, random)] = edge,
    }
}
