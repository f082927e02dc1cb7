//! Which rule bytes break that are no dump, and in which field (document 02, CR 4). The first walk looks at tags and lengths alone and
//! notes the live names. Only if these are right do values mean something: the second walk looks at them, field by field. What passes
//! both breaks another rule of those that the strict reader asks.

use crate::numbers::{refusal, BEAT, DEVICES, NAMES, NOBODY, NOTICE, ORDINARY, SERVICE, SLICE};
use crate::threads::{Answer, State};

/// Why bytes are no dump.
#[derive(Clone, Copy, Debug, PartialEq, Eq)]
pub struct Bad {
    /// 15 to 19: the first of them that is to be given.
    pub refusal: u8,
    /// Of the field at fault; the length of the bytes where one is missing or cut, and 0 for 19.
    pub offset: usize,
}

/// A bit for each tag that stands in every dump.
const NEEDED: u8 = 1 << 1 | 1 << 3 | 1 << 4;

/// For bytes that the strict reader has refused.
pub fn fault(bytes: &[u8]) -> Bad {
    match layout(bytes) {
        Ok(live) => values(bytes, &live),
        Err(bad) => bad,
    }
}

/// For each number whether it is the name of a thread.
type Live = [bool; 256];

/// The complete fields: offset, tag, value. What is then left is a field that is cut, or nothing.
struct Fields<'a> {
    offset: usize,
    rest: &'a [u8],
}

impl<'a> Iterator for Fields<'a> {
    type Item = (usize, u8, &'a [u8]);

    fn next(&mut self) -> Option<Self::Item> {
        let (&[tag, high, low], behind) = self.rest.split_first_chunk()?;
        let (value, rest) = behind.split_at_checked(u16::from_be_bytes([high, low]).into())?;
        let offset = self.offset;
        self.offset += 3 + value.len();
        self.rest = rest;
        Some((offset, tag, value))
    }
}

/// Refusals 15 and 16, else the live names. A wrong length comes before all else; a tag out of order only behind what is cut or missing.
fn layout(bytes: &[u8]) -> Result<Live, Bad> {
    let mut live = [false; 256];
    let (mut seen, mut before, mut misplaced) = (0u8, 0, None);
    let mut fields = Fields { offset: 0, rest: bytes };
    for (offset, tag, value) in &mut fields {
        if !length_fits(tag, value.len()) {
            return Err(Bad { refusal: refusal::CUT, offset });
        }
        if !(1..=6).contains(&tag) || tag < before || tag == before && stands_once(tag) {
            misplaced = misplaced.or(Some(offset));
        }
        if tag == 2 {
            live[usize::from(value[0])] = true;
        }
        seen |= 1 << tag.min(7);
        before = tag;
    }
    if !fields.rest.is_empty() || seen & NEEDED != NEEDED {
        return Err(Bad { refusal: refusal::CUT, offset: bytes.len() });
    }
    misplaced.map_or(Ok(live), |offset| Err(Bad { refusal: refusal::ORDER, offset }))
}

/// The lengths of 3 and 4 are free, and so is that of an unknown tag.
fn length_fits(tag: u8, length: usize) -> bool {
    match tag {
        1 => length == 9,
        2 => length == 17,
        5 => length == 7,
        6 => length == 5,
        _ => true,
    }
}

/// Asked of a field right behind one of its tag. Further on a second one is out of order itself, or a field before it is.
fn stands_once(tag: u8) -> bool {
    matches!(tag, 1 | 3 | 4)
}

/// Refusals 17 to 19, of fields whose tags and lengths are right.
fn values(bytes: &[u8], live: &Live) -> Bad {
    let mut dead = None;
    for (offset, tag, value) in (Fields { offset: 0, rest: bytes }) {
        if !in_range(tag, value) {
            return Bad { refusal: refusal::RANGE, offset };
        }
        if dead.is_none() && !names_live(tag, value, live) {
            dead = Some(offset);
        }
    }
    match dead {
        Some(offset) => Bad { refusal: refusal::NAME, offset },
        None => Bad { refusal: refusal::RULE, offset: 0 },
    }
}

fn is_name(number: u8) -> bool {
    number < NAMES
}

fn is_name_or_nobody(number: u8) -> bool {
    number < NAMES || number == NOBODY
}

/// The slice by the runner, the detail by the state, the answer by its kind. A manager entry is always in its range.
fn in_range(tag: u8, value: &[u8]) -> bool {
    match (tag, value) {
        (1, &[status, last, runner, slice, since, ..]) => {
            let slice_fits = if runner == NOBODY { slice == 0 } else { (1..=SLICE).contains(&slice) };
            status <= 3 && is_name(last) && is_name_or_nobody(runner) && slice_fits && since < BEAT
        }
        (2, &[name, parent, state, detail, _, _, _, _, _, _, _, kind, sender, a, b, c, d]) => {
            let answer = Answer { kind, sender, word: u32::from_be_bytes([a, b, c, d]) };
            is_name(name) && is_name_or_nobody(parent) && state_fits(state, detail) && answer.is_well_formed()
        }
        (5, &[to, from, kind, ..]) => is_name(to) && is_name(from) && matches!(kind, ORDINARY | NOTICE),
        (6, &[device, ..]) => usize::from(device) < DEVICES,
        (_, names) => names.iter().all(|&name| is_name(name)),
    }
}

/// The service interface sends no messages, so nobody waits for one of it.
fn state_fits(state: u8, detail: u8) -> bool {
    State::from_numbers(state, detail).is_some_and(|state| state != State::Receiving(SERVICE))
}

/// Whether every name is live that has to be; values are in their ranges. The name given last and the senders of answers may have ended.
fn names_live(tag: u8, value: &[u8], live: &Live) -> bool {
    let is_live = |name: u8| live[usize::from(name)];
    match (tag, value) {
        (1, &[_, _, runner, ..]) => runner == NOBODY || is_live(runner),
        (2, &[_, parent, state, detail, program, tlb, sysbp, ..]) => {
            let managers = [program, tlb, sysbp];
            let wait_right = match State::from_numbers(state, detail) {
                Some(State::Receiving(wanted)) => wanted == NOBODY || is_live(wanted),
                Some(State::Trapped(kind)) => is_live(managers[usize::from(kind)]),
                _ => true,
            };
            let may_be_set = |manager: u8| !is_name(manager) || is_live(manager);
            wait_right && (parent == NOBODY || is_live(parent)) && managers.into_iter().all(may_be_set)
        }
        (5, &[to, from, ..]) => is_live(to) && is_live(from),
        (6, _) => true,
        (_, names) => names.iter().all(|&name| is_live(name)),
    }
}
