//! Damaged dumps.
//!
//! Most are no dumps any more, but some are dumps of other tables: only the reader can say. A kind that a dump gives no room for (no
//! message to double, nobody trapped) is not used on it, and another one is drawn.

use crate::dump::{self, length_of};
use crate::event::{bytes::field, first_field};
use crate::fault::{Cause, CAUSES};
use crate::numbers::{Refusal, BEAT, NAMES, NOBODY};
use crate::program::fields_of;
use crate::random::Random;
use crate::spoil::{self, place_in};
use crate::tables::{state, Tables};

#[derive(Clone, Copy, Debug, PartialEq, Eq, PartialOrd, Ord)]
pub enum Damage {
    /// One bit of one byte.
    Bit,
    /// One byte.
    Byte,
    /// One byte becomes a number that stands at some limit of document 01.
    TellingByte,
    ByteLost,
    ByteAdded,
    BytesBehind,
    /// Cut anywhere.
    Cut,
    /// Cut where a field ends.
    CutBetween,
    FieldTwice,
    /// Far more often than tables have room for, or a few times more.
    FieldManyTimes,
    FieldLost,
    /// Two neighbours.
    FieldsSwapped,
    /// A field stands elsewhere.
    FieldMoved,
    /// A field of any tag, or an empty one, is put in.
    FieldAdded,
    TagChanged,
    /// The length says something else than the value has.
    LengthChanged,
    /// Value and length are one longer or shorter.
    ValueResized,
    /// A queue has up to 2,000 names, and seldom as many as a field can have.
    LongQueue,
    /// Fields of any tags, most of the right length, with small values, and nothing of the dump.
    AnyFields,
    /// A name becomes another one, live or not.
    NameChanged,
    /// Something that no rule ties to anything: still a dump.
    FreeNumber,
    /// Another order of a queue or an inbox: still a dump.
    OrderChanged,
    /// Two dumps, one behind the other.
    DumpTwice,
    /// A fault of this cause.
    Fault(Cause),
    /// Faults of two of the numbers 15 to 19.
    TwoNumbers([Refusal; 2]),
    /// Two faults of one number.
    TwoPlaces(Refusal),
}

use Damage::*;

/// Every kind.
#[rustfmt::skip]
pub fn kinds() -> Vec<Damage> {
    let mut kinds = vec![
        Bit, Byte, TellingByte, ByteLost, ByteAdded, BytesBehind, Cut, CutBetween, FieldTwice, FieldManyTimes,
        FieldLost, FieldsSwapped, FieldMoved, FieldAdded, TagChanged, LengthChanged, ValueResized, LongQueue,
        AnyFields, NameChanged, FreeNumber, OrderChanged, DumpTwice,
    ];
    kinds.extend(CAUSES.map(Fault));
    kinds.extend(spoil::TWO_NUMBERS.map(TwoNumbers));
    kinds.extend(spoil::TWO_PLACES.map(TwoPlaces));
    kinds
}

/// Damage a dump in some way; gives the bytes and the kind.
pub fn damage(bytes: &[u8], random: &mut Random) -> (Vec<u8>, Damage) {
    loop {
        if let Some(kind) = random.choose(&kinds()) {
            if let Some(damaged) = damage_by(bytes, kind, random) {
                return (damaged, kind);
            }
        }
    }
}

/// Damage a dump in this way, if it gives room for it. The bytes are never those of the dump.
pub fn damage_by(bytes: &[u8], kind: Damage, random: &mut Random) -> Option<Vec<u8>> {
    let damaged = match kind {
        Bit | Byte | TellingByte | ByteLost | ByteAdded | BytesBehind | Cut | DumpTwice => {
            in_bytes(bytes, kind, random)
        }
        LongQueue | NameChanged | FreeNumber | OrderChanged => in_tables(bytes, kind, random)?,
        AnyFields => any_fields(random),
        Fault(cause) => spoil::spoil(bytes, cause, random)?,
        TwoNumbers(numbers) => spoil::spoil_twice(bytes, numbers, random)?,
        TwoPlaces(number) => spoil::spoil_twice(bytes, [number, number], random)?,
        _ => in_fields(bytes, kind, random)?,
    };
    (damaged != bytes).then_some(damaged)
}

fn in_bytes(bytes: &[u8], kind: Damage, random: &mut Random) -> Vec<u8> {
    let mut damaged = bytes.to_vec();
    let place = random.below(bytes.len() as u64) as usize;
    match kind {
        Bit => damaged[place] ^= 1 << random.below(8),
        Byte => damaged[place] = random.byte(),
        TellingByte => damaged[place] = telling_byte(random),
        ByteLost => drop(damaged.remove(place)),
        ByteAdded => damaged.insert(place, random.byte()),
        Cut => damaged.truncate(place),
        DumpTwice => damaged.extend(bytes),
        _ => {
            let more = 1 + random.below(4);
            let byte = if random.one_in(2) { 0 } else { random.byte() };
            damaged.extend((0..more).map(|_| byte));
        }
    }
    damaged
}

fn telling_byte(random: &mut Random) -> u8 {
    let limits = [0, 1, 2, 3, 4, 5, 6, 19, 20, 21, 47, 48, 252, NAMES - 1, NAMES, NOBODY];
    random.choose(&limits).unwrap_or(0)
}

fn in_fields(bytes: &[u8], kind: Damage, random: &mut Random) -> Option<Vec<u8>> {
    let mut fields = fields_of(bytes);
    let place = random.below(fields.len() as u64) as usize;
    match kind {
        CutBetween => fields.truncate(place),
        FieldTwice => fields.insert(place, fields[place].clone()),
        FieldManyTimes => {
            let times = if random.one_in(2) { random.below(6) } else { random.below(300) };
            let copies = vec![fields[place].clone(); times as usize];
            fields.splice(place..place, copies);
        }
        FieldLost => drop(fields.remove(place)),
        FieldsSwapped => {
            let next = (place + 1) % fields.len();
            fields.swap(place, next);
        }
        FieldMoved => {
            let moved = fields.remove(place);
            fields.insert(random.below(fields.len() as u64 + 1) as usize, moved);
        }
        FieldAdded => fields.insert(place, added_field(random)),
        TagChanged => {
            fields[place][0] = if random.one_in(4) { random.byte() } else { random.below(11) as u8 }
        }
        LengthChanged => fields[place][2] = fields[place][2].wrapping_add(1 + random.below(255) as u8),
        ValueResized => fields[place] = resized(&fields[place], random)?,
        _ => return None,
    }
    Some(fields.concat())
}

/// A head first, then rising tags, each with a chance to be anything else.
fn any_fields(random: &mut Random) -> Vec<u8> {
    let mut fields = Vec::new();
    for tag in [1, 2, 2, 3, 4, 5, 6] {
        let tag = if random.one_in(12) { random.below(9) as u8 } else { tag };
        let queued = random.below(3) as usize;
        let length = length_of(tag).unwrap_or(queued) + usize::from(random.one_in(20));
        let value: Vec<u8> =
            (0..length).map(|_| if random.one_in(3) { telling_byte(random) } else { 0 }).collect();
        if !random.one_in(10) {
            fields.extend(field(tag, &value));
        }
    }
    fields
}

fn added_field(random: &mut Random) -> Vec<u8> {
    let tag = random.below(11) as u8;
    let length = random.choose(&[0, 0, 1, 2, 5, 7, 9, 17]).unwrap_or(0);
    let value: Vec<u8> = (0..length).map(|_| random.below(4) as u8).collect();
    field(tag, &value)
}

fn resized(bytes: &[u8], random: &mut Random) -> Option<Vec<u8>> {
    let (tag, value, _) = first_field(bytes)?;
    let mut value = value.to_vec();
    if value.is_empty() || random.one_in(2) {
        value.push(random.below(4) as u8);
    } else {
        value.pop();
    }
    Some(field(tag, &value))
}

fn in_tables(bytes: &[u8], kind: Damage, random: &mut Random) -> Option<Vec<u8>> {
    let mut tables = dump::read(bytes)?;
    match kind {
        LongQueue => lengthen_queue(&mut tables, random),
        NameChanged => change_name(&mut tables, random)?,
        FreeNumber => change_free_number(&mut tables, random)?,
        OrderChanged => change_order(&mut tables, random)?,
        _ => return None,
    }
    Some(dump::write(&tables))
}

fn lengthen_queue(tables: &mut Tables, random: &mut Random) {
    let most = if random.one_in(8) { 65_500 } else { 2_000 };
    let names = (0..1 + random.below(most)).map(|number| (number % u64::from(NAMES)) as u8);
    let queue = if random.one_in(2) { &mut tables.ready } else { &mut tables.clock };
    queue.extend(names);
}

/// Any of the names in the tables becomes another one.
fn change_name(tables: &mut Tables, random: &mut Random) -> Option<()> {
    let live: Vec<u8> = tables.threads.iter().map(|thread| thread.name).collect();
    let name = if random.one_in(2) { random.below(NAMES.into()) as u8 } else { random.choose(&live)? };
    let thread = place_in(&tables.threads, random)?;
    match random.below(8) {
        0 => tables.runner = name,
        1 => tables.threads[thread].parent = name,
        2 => tables.threads[thread].managers[random.below(3) as usize] = name,
        3 if tables.threads[thread].state == state::RECEIVING => tables.threads[thread].detail = name,
        4 => *tables.ready.get_mut(random.below(4) as usize)? = name,
        5 => *tables.clock.get_mut(random.below(2) as usize)? = name,
        6 => {
            let place = place_in(&tables.messages, random)?;
            tables.messages[place].sender = name;
        }
        7 => {
            let place = place_in(&tables.messages, random)?;
            tables.messages[place].receiver = name;
            tables.messages.sort_by_key(|message| message.receiver);
        }
        _ => return None,
    }
    Some(())
}

fn change_free_number(tables: &mut Tables, random: &mut Random) -> Option<()> {
    let word = random.bits() as u32;
    match random.below(6) {
        0 => tables.name_given_last = random.below(NAMES.into()) as u8,
        1 => tables.ticks_since_beat = random.below(BEAT.into()) as u8,
        2 => tables.beats = word,
        3 => {
            let place = place_in(&tables.threads, random)?;
            tables.threads[place].count = word;
        }
        4 => {
            let place = place_in(&tables.messages, random)?;
            tables.messages[place].word = word;
        }
        _ => {
            let place = place_in(&tables.held, random)?;
            tables.held[place].word = word;
        }
    }
    Some(())
}

fn change_order(tables: &mut Tables, random: &mut Random) -> Option<()> {
    match random.below(3) {
        0 => tables.ready.reverse(),
        1 => tables.clock.reverse(),
        _ => {
            tables.messages.reverse();
            tables.messages.sort_by_key(|message| message.receiver);
        }
    }
    Some(())
}
