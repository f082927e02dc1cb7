//! Good and damaged dumps: both programs read them, or both refuse them with the same number at the same offset, and what is read is
//! written as the same bytes.

mod common;
use common::*;
use nucleus::damage::damage;
use nucleus::random::Random;
use nucleus::valid::Dumps;
use plain::lent::{load_checked, Tables};
use plain::load;

#[test]
fn a_short_buffer_is_refused_and_stays() {
    for node in nodes(40, 100) {
        let dump = node.dump();
        let plain = load(&dump).expect("a dump");
        let mut buffer = [0xa5; BUFFER + 9];
        assert_eq!(plain.dump(&mut buffer[..dump.len() - 1]), Err(12));
        assert_eq!(buffer, [0xa5; BUFFER + 9]);
        assert_eq!(plain.dump(&mut buffer[..dump.len()]), Ok(dump.len()));
        assert_eq!(plain.dump(&mut buffer), Ok(dump.len()));
        assert_eq!(buffer[..dump.len()], dump);
        assert!(buffer[dump.len()..].iter().all(|&byte| byte == 0xa5));
    }
}

/// The refusal that both give, or 0.
fn loads_agree(bytes: &[u8]) -> u8 {
    let loaded = load(bytes);
    let told = loaded.as_ref().map_or_else(|bad| (bad.refusal, bad.offset), |_| (0, 0));
    let expected = nucleus::load(bytes).map_or_else(|bad| bad.numbers(), |_| (0, 0));
    assert_eq!(told, expected, "{bytes:?}");
    let before = Tables::start();
    let mut tables = before.clone();
    assert_eq!(load_checked(&mut tables, bytes).err(), loaded.as_ref().err().copied());
    match loaded {
        Err(_) => assert_eq!(tables, before),
        Ok(plain) => {
            assert_eq!(dump_of(&plain), bytes);
            assert_eq!(dump_of_lent(&tables), bytes);
        }
    }
    told.0
}

/// How often each answer came: dumps, then 15 to 19.
#[derive(Default, Debug)]
struct Answers([u64; 6]);

impl Answers {
    fn note(&mut self, bytes: &[u8]) {
        self.0[usize::from(loads_agree(bytes).saturating_sub(14))] += 1;
    }

    /// That the test has met enough of each.
    fn expect(&self, what: &str, least: [u64; 6]) {
        println!("{what}: dumps and 15 to 19: {:?}", self.0);
        assert!(self.0.iter().zip(least).all(|(&met, least)| met >= least), "{what}: {self:?}");
    }
}

/// One kind of damage: a number, two numbers, a cut, bytes behind, or a part moved by one.
fn damaged(random: &mut Random, dump: &[u8]) -> Vec<u8> {
    let mut bytes = dump.to_vec();
    let place = |random: &mut Random| random.below(dump.len() as u64) as usize;
    match random.below(10) {
        0..=4 => bytes[place(random)] = odd_number(random, dump),
        5 | 6 => {
            bytes[place(random)] = odd_number(random, dump);
            bytes[place(random)] = odd_number(random, dump);
        }
        7 => bytes.truncate(place(random)),
        8 => bytes.extend((0..1 + random.below(12)).map(|_| random.byte())),
        _ => {
            let (one, other) = (place(random), place(random));
            bytes[one.min(other)..=one.max(other)].rotate_left(1);
        }
    }
    bytes
}

#[test]
fn good_and_damaged_dumps_agree() {
    let mut random = Random::new(5);
    let mut answers = Answers::default();
    for node in nodes(60, 40) {
        let dump = node.dump();
        assert_eq!(loads_agree(&dump), 0);
        for _ in 0..200 {
            let bytes = damaged(&mut random, &dump);
            if bytes != dump {
                answers.note(&bytes);
            }
        }
    }
    answers.expect("damaged dumps", [10_000; 6]);
}

/// Random dumps, and all that the independent program can do to them.
#[test]
fn all_damages_agree() {
    let mut dumps = Dumps::new(4);
    let mut answers = Answers::default();
    for _ in 0..4_000 {
        let dump = dumps.next_dump();
        assert_eq!(loads_agree(&dump), 0);
        for _ in 0..20 {
            let (bytes, _) = damage(&dump, dumps.random());
            answers.note(&bytes);
        }
    }
    answers.expect("all damages", [1_000; 6]);
}

fn cut(mut bytes: &[u8]) -> Vec<&[u8]> {
    let mut fields = Vec::new();
    while !bytes.is_empty() {
        let (field, rest) = bytes.split_at(3 + usize::from(bytes[1]) * 256 + usize::from(bytes[2]));
        fields.push(field);
        bytes = rest;
    }
    fields
}

/// Two fields in each other's place, a field left out, a field twice. Messages in one inbox may change places: that is another dump.
#[test]
fn fields_in_wrong_places_agree() {
    let mut answers = Answers::default();
    let mut note = |fields: Vec<&[u8]>| answers.note(&fields.concat());
    for node in nodes(20, 80) {
        let dump = node.dump();
        let fields = cut(&dump);
        for first in 0..fields.len() {
            note([&fields[..first], &fields[first + 1..]].concat());
            note([&fields[..first + 1], &fields[first..]].concat());
            for second in first + 1..fields.len() {
                let mut swapped = fields.clone();
                swapped.swap(first, second);
                note(swapped);
            }
        }
    }
    // No value is changed, so none is out of its range.
    answers.expect("fields in wrong places", [100, 100, 1_000, 0, 100, 1_000]);
}
