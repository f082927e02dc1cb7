//! What is at fault in bytes that are no dump: request 4 of document 02.
//!
//! Each rule looks at the bytes by itself, so that several faults can stand beside each other. The first number of the list counts, and
//! within it the earliest field.
//!
//! * `cause`   the causes of each number
//! * `form`    15 and 16: fields, lengths and tags
//! * `values`  17: ranges
//! * `names`   18: names that have to be live
//! * `rest`    19: every other rule

mod cause;
mod form;
mod names;
mod rest;
mod values;

pub use cause::{Cause, CAUSES};

use crate::event::first_field;
use crate::numbers::Refusal;

/// The refusal of bytes that are no dump, and where.
#[derive(Clone, Copy, Debug, PartialEq, Eq)]
pub struct Bad {
    pub refusal: Refusal,
    pub offset: usize,
}

impl Bad {
    pub fn numbers(self) -> (u8, usize) {
        (self.refusal.number(), self.offset)
    }
}

/// One rule that does not hold.
#[derive(Clone, Copy, Debug, PartialEq, Eq)]
pub struct Fault {
    pub cause: Cause,
    /// The first byte of the field at fault; the length of the input where a field is missing or cut; 0 for 19.
    pub offset: usize,
}

impl Fault {
    pub fn bad(self) -> Bad {
        Bad { refusal: self.cause.refusal(), offset: self.offset }
    }
}

/// Every fault of the bytes, the one that counts first. A dump has none.
pub fn faults(bytes: &[u8]) -> Vec<Fault> {
    let input = Input::of(bytes);
    let mut faults = form::faults(&input);
    faults.extend(input.fields.iter().flat_map(values::faults));
    faults.extend(names::faults(&input.fields));
    faults.extend(rest::causes(bytes).into_iter().map(|cause| Fault { cause, offset: 0 }));
    in_order(&mut faults);
    faults
}

/// By number, then by place.
pub fn in_order(faults: &mut [Fault]) {
    faults.sort_by_key(|fault| (fault.cause.refusal(), fault.offset));
}

/// The cause of the first fault, if no other fault has its number and its place: without this rule the answer would be another one.
pub fn deciding(faults: &[Fault]) -> Option<Cause> {
    match faults {
        [] => None,
        [first, second, ..] if first.bad() == second.bad() => None,
        [first, ..] => Some(first.cause),
    }
}

/// The bytes as fields, and what is left at the end.
struct Input<'a> {
    fields: Vec<Field<'a>>,
    /// Less than a field.
    rest: &'a [u8],
    length: usize,
}

struct Field<'a> {
    offset: usize,
    tag: u8,
    value: &'a [u8],
}

impl<'a> Input<'a> {
    fn of(bytes: &'a [u8]) -> Input<'a> {
        let (mut fields, mut rest) = (Vec::new(), bytes);
        while let Some((tag, value, behind)) = first_field(rest) {
            fields.push(Field { offset: bytes.len() - rest.len(), tag, value });
            rest = behind;
        }
        Input { fields, rest, length: bytes.len() }
    }
}
