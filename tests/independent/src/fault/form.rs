//! 15 and 16: fields, lengths and tags.

use super::{Cause, Fault, Field, Input};
use crate::dump::{length_of, CLOCK, HEAD, HELD, READY};

/// They stand exactly once.
const ONCE: [u8; 3] = [HEAD, READY, CLOCK];

pub fn faults(input: &Input) -> Vec<Fault> {
    let mut faults: Vec<Fault> = cut(input).into_iter().collect();
    faults.extend(wrong_lengths(input));
    faults.extend(missing(input));
    faults.extend(unknown_tags(input));
    faults.extend(out_of_order(input));
    faults.extend(ONCE.into_iter().flat_map(|tag| seconds(input, tag)));
    faults
}

/// A field that is not all there has no length to be measured, so its length is not looked at.
fn cut(input: &Input) -> Option<Fault> {
    let cause = match input.rest.len() {
        0 => return None,
        1 | 2 => Cause::StrayBytes,
        _ => Cause::CutField,
    };
    Some(Fault { cause, offset: input.length })
}

fn wrong_lengths(input: &Input) -> Vec<Fault> {
    let is_wrong = |field: &&Field| length_of(field.tag).is_some_and(|length| length != field.value.len());
    let fault = |field: &Field| Fault { cause: Cause::WrongLength(field.tag), offset: field.offset };
    input.fields.iter().filter(is_wrong).map(fault).collect()
}

/// A field that is cut is not missing. It is refused at the same place.
fn missing(input: &Input) -> Vec<Fault> {
    let stands =
        |tag: u8| input.fields.iter().any(|field| field.tag == tag) || input.rest.first() == Some(&tag);
    let fault = |tag: u8| Fault { cause: Cause::Missing(tag), offset: input.length };
    ONCE.into_iter().filter(|&tag| !stands(tag)).map(fault).collect()
}

fn is_known(tag: u8) -> bool {
    (HEAD..=HELD).contains(&tag)
}

fn unknown_tags(input: &Input) -> Vec<Fault> {
    let unknown = input.fields.iter().filter(|field| !is_known(field.tag));
    unknown.map(|field| Fault { cause: Cause::UnknownTag, offset: field.offset }).collect()
}

/// Tags rank by their numbers. An unknown one has no rank, and is at fault itself.
fn out_of_order(input: &Input) -> Vec<Fault> {
    let falls = |pair: &&[Field]| is_known(pair[1].tag) && is_known(pair[0].tag) && pair[1].tag < pair[0].tag;
    let fault = |pair: &[Field]| Fault { cause: Cause::OutOfOrder, offset: pair[1].offset };
    input.fields.windows(2).filter(falls).map(fault).collect()
}

fn seconds(input: &Input, tag: u8) -> Vec<Fault> {
    let later = input.fields.iter().filter(|field| field.tag == tag).skip(1);
    later.map(|field| Fault { cause: Cause::Second(tag), offset: field.offset }).collect()
}
