//! 15 and 16: fields, lengths and tags.

use super::place_in;
use crate::dump::length_of;
use crate::event::bytes::field;
use crate::fault::Cause;
use crate::random::Random;

type Fields = Vec<Vec<u8>>;

pub fn spoil(fields: &mut Fields, cause: Cause, random: &mut Random) -> Option<()> {
    match cause {
        Cause::CutField => cut_field(fields, random)?,
        Cause::StrayBytes => {
            let bytes = [random.below(8) as u8, random.byte()];
            fields.push(bytes[..1 + random.below(2) as usize].to_vec());
        }
        Cause::WrongLength(tag) => {
            let place = random.choose(&places(fields, tag))?;
            fields[place] = of_wrong_length(tag, random)?;
        }
        Cause::Missing(tag) => fields.retain(|field| field.first() != Some(&tag)),
        Cause::UnknownTag => unknown_tag(fields, random)?,
        Cause::OutOfOrder => swap_tags(fields, random)?,
        Cause::Second(tag) => second(fields, tag, random)?,
        _ => return None,
    }
    Some(())
}

fn places(fields: &Fields, tag: u8) -> Vec<usize> {
    (0..fields.len()).filter(|&place| fields[place].first() == Some(&tag)).collect()
}

/// The last value loses bytes, its length is raised (then it is wrong too), or a field of any tag begins behind it.
fn cut_field(fields: &mut Fields, random: &mut Random) -> Option<()> {
    let last = fields.last_mut()?;
    match random.below(3) {
        0 if last.len() > 3 => last.truncate(3 + random.below(last.len() as u64 - 3) as usize),
        1 if last.len() > 2 && last[2] < 255 => last[2] += 1 + random.below(255 - u64::from(last[2])) as u8,
        _ => {
            let length = 1 + random.below(300) as u16;
            let mut begun = vec![random.below(10) as u8];
            begun.extend(length.to_be_bytes());
            begun.extend((0..random.below(length.into())).map(|_| random.below(6) as u8));
            fields.push(begun);
        }
    }
    Some(())
}

/// Empty, one byte off, or anything else up to 300.
fn of_wrong_length(tag: u8, random: &mut Random) -> Option<Vec<u8>> {
    let right = length_of(tag)?;
    let any = random.below(300) as usize;
    let length = random.choose(&[0, right - 1, right + 1, right + 4, any])?;
    let value: Vec<u8> = (0..length).map(|_| random.below(4) as u8).collect();
    (length != right).then(|| field(tag, &value))
}

/// A field that may stand any number of times gets another tag, or one is put in.
fn unknown_tag(fields: &mut Fields, random: &mut Random) -> Option<()> {
    let any = 7 + random.below(249) as u8;
    let tag = random.choose(&[0, 7, 8, 9, 10, 16, 255, any])?;
    let many: Vec<usize> = [2, 5, 6].into_iter().flat_map(|tag| places(fields, tag)).collect();
    match random.choose(&many) {
        Some(place) if random.one_in(2) => fields[place][0] = tag,
        _ => {
            let value = vec![random.below(8) as u8; random.below(30) as usize];
            fields.insert(random.below(fields.len() as u64 + 1) as usize, field(tag, &value));
        }
    }
    Some(())
}

/// Two fields of different tags change places.
fn swap_tags(fields: &mut Fields, random: &mut Random) -> Option<()> {
    let (one, other) = (place_in(fields, random)?, place_in(fields, random)?);
    if fields[one].first() == fields[other].first() {
        return None;
    }
    fields.swap(one, other);
    Some(())
}

/// Right behind the first one, where no tag is out of order, or further behind.
fn second(fields: &mut Fields, tag: u8, random: &mut Random) -> Option<()> {
    let first = *places(fields, tag).first()?;
    let copy =
        if length_of(tag).is_none() && random.one_in(2) { field(tag, &[]) } else { fields[first].clone() };
    let behind = if random.one_in(4) { random.below((fields.len() - first) as u64) as usize } else { 0 };
    fields.insert(first + 1 + behind, copy);
    Some(())
}
