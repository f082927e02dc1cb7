//! Dumps that are damaged by one simple edit, so that they are none: for each of the refusals 15 to 19 some.

use crate::timing::fields;

/// A dump, field by field.
type Fields = Vec<Vec<u8>>;

pub struct Edit {
    /// What the edited bytes are refused with.
    pub refusal: u8,
    pub name: &'static str,
    /// None where the dump has nothing of the kind.
    edit: fn(&mut Fields) -> Option<()>,
}

impl Edit {
    /// The bytes of the edited dump.
    pub fn of(&self, dump: &[u8]) -> Option<Vec<u8>> {
        let mut fields: Fields = fields(dump).map(<[u8]>::to_vec).collect();
        (self.edit)(&mut fields)?;
        Some(fields.concat())
    }
}

const fn edit(refusal: u8, name: &'static str, edit: fn(&mut Fields) -> Option<()>) -> Edit {
    Edit { refusal, name, edit }
}

/// Some faults stand early in the bytes and some late, since a reader may stop at the first.
pub const EDITS: [Edit; 19] = [
    edit(15, "cut in the middle", cut_in_the_middle),
    edit(15, "last byte lost", |fields| fields.last_mut()?.pop().map(drop)),
    edit(15, "wrong length in the middle", |fields| grow(middle(fields)?, 0)),
    edit(15, "no field 4", no_field_4),
    edit(16, "unknown tag in the middle", |fields| put(middle(fields)?, 0, 7)),
    edit(16, "fields 3 and 4 swapped", queues_swapped),
    edit(16, "unknown tag at the end", unknown_at_the_end),
    edit(17, "ticks since the beat", |fields| put(first(fields, 1)?, 7, 20)),
    edit(17, "state of the last thread", |fields| put(last(fields, 2)?, 5, 6)),
    edit(17, "answer of the last thread", |fields| put(last(fields, 2)?, 14, 5)),
    edit(17, "last held device", |fields| put(last(fields, 6)?, 3, 48)),
    edit(18, "runner not live", runner_not_live),
    edit(18, "manager not live", |fields| put_dead(fields, 2, 7)),
    edit(18, "ready name not live", ready_not_live),
    edit(18, "last receiver not live", |fields| put_dead(fields, 5, 3)),
    edit(19, "status", |fields| first(fields, 1).map(|field| field[3] ^= 1)),
    edit(19, "ready name twice", ready_twice),
    edit(19, "last thread its own parent", own_parent),
    edit(19, "last held word twice", last_held_twice),
];

fn first(fields: &mut Fields, tag: u8) -> Option<&mut Vec<u8>> {
    fields.iter_mut().find(|field| field[0] == tag)
}

fn last(fields: &mut Fields, tag: u8) -> Option<&mut Vec<u8>> {
    fields.iter_mut().rfind(|field| field[0] == tag)
}

/// Of those with a fixed length.
fn middle(fields: &mut Fields) -> Option<&mut Vec<u8>> {
    let mut fixed: Vec<_> = fields.iter_mut().filter(|field| !matches!(field[0], 3 | 4)).collect();
    let place = fixed.len() / 2;
    (place < fixed.len()).then(|| fixed.swap_remove(place))
}

fn put(field: &mut [u8], at: usize, byte: u8) -> Option<()> {
    field[at] = byte;
    Some(())
}

/// A byte more, and the length says so.
fn grow(field: &mut Vec<u8>, byte: u8) -> Option<()> {
    field.push(byte);
    field[2] += 1;
    Some(())
}

/// The highest name that no thread has.
fn dead(fields: &Fields) -> Option<u8> {
    (0..254).rev().find(|&name| !fields.iter().any(|field| field[0] == 2 && field[3] == name))
}

/// Into the last field of this tag.
fn put_dead(fields: &mut Fields, tag: u8, at: usize) -> Option<()> {
    let dead = dead(fields)?;
    put(last(fields, tag)?, at, dead)
}

fn cut_in_the_middle(fields: &mut Fields) -> Option<()> {
    fields.truncate(fields.len() / 2 + 1);
    fields.last_mut()?.pop().map(drop)
}

fn no_field_4(fields: &mut Fields) -> Option<()> {
    fields.retain(|field| field[0] != 4);
    Some(())
}

fn queues_swapped(fields: &mut Fields) -> Option<()> {
    let ready = fields.iter().position(|field| field[0] == 3)?;
    fields.swap(ready, ready + 1);
    Some(())
}

fn unknown_at_the_end(fields: &mut Fields) -> Option<()> {
    fields.push(vec![7, 0, 0]);
    Some(())
}

fn runner_not_live(fields: &mut Fields) -> Option<()> {
    let dead = dead(fields)?;
    let node = first(fields, 1).filter(|field| field[5] != 255)?;
    put(node, 5, dead)
}

fn ready_not_live(fields: &mut Fields) -> Option<()> {
    let dead = dead(fields)?;
    grow(first(fields, 3)?, dead)
}

fn ready_twice(fields: &mut Fields) -> Option<()> {
    let ready = first(fields, 3)?;
    let front = *ready.get(3)?;
    grow(ready, front)
}

fn own_parent(fields: &mut Fields) -> Option<()> {
    let thread = last(fields, 2)?;
    let name = thread[3];
    put(thread, 4, name)
}

fn last_held_twice(fields: &mut Fields) -> Option<()> {
    let held = last(fields, 6)?.clone();
    fields.push(held);
    Some(())
}
