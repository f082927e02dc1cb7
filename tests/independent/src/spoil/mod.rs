//! Dumps spoilt with a fault of a given cause.
//!
//! As far as it goes there is no other fault of that number before it or in the same field, so that the answer rests on this cause;
//! faults of later numbers may come with it. `None` says that the dump gives no room for it.

mod form;
mod names;
mod rest;
mod values;

use crate::dump;
use crate::fault::{Cause, CAUSES};
use crate::numbers::Refusal;
use crate::program::fields_of;
use crate::random::Random;
use crate::tables::Tables;

/// The dump with one fault.
pub fn spoil(bytes: &[u8], cause: Cause, random: &mut Random) -> Option<Vec<u8>> {
    spoil_all(bytes, vec![cause], random)
}

/// Faults of both numbers, or two of one: the lower number counts, wherever it stands, and of one number the earlier field.
pub fn spoil_twice(bytes: &[u8], numbers: [Refusal; 2], random: &mut Random) -> Option<Vec<u8>> {
    let [first, second] = numbers;
    let causes = vec![any_of(first, random)?, any_of(second, random)?];
    spoil_all(bytes, causes, random)
}

/// Two numbers that can be found in the same bytes; for 19 the form has to be right.
pub const TWO_NUMBERS: [[Refusal; 2]; 8] = [
    [Refusal::CutShort, Refusal::OutOfPlace],
    [Refusal::CutShort, Refusal::OutOfRange],
    [Refusal::CutShort, Refusal::NameNotLive],
    [Refusal::OutOfPlace, Refusal::OutOfRange],
    [Refusal::OutOfPlace, Refusal::NameNotLive],
    [Refusal::OutOfRange, Refusal::NameNotLive],
    [Refusal::OutOfRange, Refusal::OtherRule],
    [Refusal::NameNotLive, Refusal::OtherRule],
];

/// The numbers whose faults have places.
pub const TWO_PLACES: [Refusal; 4] =
    [Refusal::CutShort, Refusal::OutOfPlace, Refusal::OutOfRange, Refusal::NameNotLive];

fn any_of(number: Refusal, random: &mut Random) -> Option<Cause> {
    let causes: Vec<Cause> = CAUSES.into_iter().filter(|cause| cause.refusal() == number).collect();
    random.choose(&causes)
}

/// First in the tables, the order of rows last; then in the form, what is cut last.
fn spoil_all(bytes: &[u8], mut causes: Vec<Cause>, random: &mut Random) -> Option<Vec<u8>> {
    causes.sort_unstable();
    let mut tables = dump::read(bytes)?;
    for &cause in &causes {
        spoil_tables(&mut tables, cause, random)?;
    }
    let mut fields = fields_of(&dump::write(&tables));
    for &cause in causes.iter().rev() {
        spoil_form(&mut fields, cause, random)?;
    }
    Some(fields.concat())
}

fn spoil_tables(tables: &mut Tables, cause: Cause, random: &mut Random) -> Option<()> {
    match cause.refusal() {
        Refusal::OutOfRange => values::spoil(tables, cause, random),
        Refusal::NameNotLive => names::spoil(tables, cause, random),
        Refusal::OtherRule => rest::spoil(tables, cause, random),
        _ => Some(()),
    }
}

fn spoil_form(fields: &mut Vec<Vec<u8>>, cause: Cause, random: &mut Random) -> Option<()> {
    match cause.refusal() {
        Refusal::CutShort | Refusal::OutOfPlace => form::spoil(fields, cause, random),
        _ => Some(()),
    }
}

/// A place of the row, if it is not empty.
pub(crate) fn place_in<T>(row: &[T], random: &mut Random) -> Option<usize> {
    (!row.is_empty()).then(|| random.below(row.len() as u64) as usize)
}

/// From the limit on up to 255.
pub(crate) fn over(limit: u8, random: &mut Random) -> u8 {
    if random.one_in(2) {
        return limit;
    }
    limit + random.below(256 - u64::from(limit)) as u8
}
