//! Batches with one slip each, over the library's single steps, to show that the comparison finds it.
//!
//! There is one batch, and each slip has its place in it. Without a slip it is right, and is held to the independent program too: so what
//! is found of a slip is the slip.

use nucleus::batch::{complete_fields, NUMBERS};
use rubbish::layout::{Words, WORDS};
use rubbish::lent::{nucleus_check, nucleus_step, Bytes, Report};

#[derive(Clone, Copy, Debug, PartialEq, Eq)]
pub enum Slip {
    /// None: the batch is right.
    Right,
    AsksOneTooFew,
    AsksForTheCutField,
    AsksForFormedOnly,
    WantsJustEnough,
    CountsWhileRunning,
    BadTablesFirst,
    BadTablesInShortBuffer,
    LeavesOutRefused,
    StopsAtRefused,
    StopsWithTheNode,
    RunsTheCutField,
    LengthInOneByte,
    CutsTheWord,
    DoesNotCarryTables,
    KeepsTheTables,
    OneByteTooEarly,
    OneByteTooLate,
    SameBytesElsewhere,
    HandsBackAll,
    HandsBackAllOfBadTables,
    LengthOfAll,
    LeavesNoRefusal,
    ClearsBehind,
    ClearsWhenRefused,
    TouchesTablesWhenRefused,
    MovesOnWhenRefused,
    WritesOneMore,
    WritesBehindTheTables,
    ChangesTheBytes,
    RefusalIn32Bits,
}

pub const SLIPS: [(Slip, &str); 31] = [
    (Slip::Right, "no slip"),
    (Slip::AsksOneTooFew, "one number too few is asked for"),
    (Slip::AsksForTheCutField, "room is asked for the cut field too"),
    (Slip::AsksForFormedOnly, "no room is asked for a malformed field"),
    (Slip::WantsJustEnough, "more room than is needed is refused"),
    (Slip::CountsWhileRunning, "room is counted while running"),
    (Slip::BadTablesFirst, "11 is given before 14"),
    (Slip::BadTablesInShortBuffer, "11 is written as far as the buffer goes, before 14"),
    (Slip::LeavesOutRefused, "decisions of refused events are left out"),
    (Slip::StopsAtRefused, "a refused event ends the batch"),
    (Slip::StopsWithTheNode, "a node that stops ends the batch"),
    (Slip::RunsTheCutField, "a cut field is run"),
    (Slip::LengthInOneByte, "a length is read from one byte"),
    (Slip::CutsTheWord, "a word is written in 16 bits"),
    (Slip::DoesNotCarryTables, "tables are not carried from one event to the next"),
    (Slip::KeepsTheTables, "tables are left as they were"),
    (Slip::OneByteTooEarly, "the end begins one byte too early"),
    (Slip::OneByteTooLate, "the end begins one byte too late"),
    (Slip::SameBytesElsewhere, "the end is the same bytes at another place"),
    (Slip::HandsBackAll, "all bytes are handed back always"),
    (Slip::HandsBackAllOfBadTables, "all bytes are handed back with bad tables"),
    (Slip::LengthOfAll, "the end has the length of all bytes"),
    (Slip::LeavesNoRefusal, "the refusal is left as it was where it is 0"),
    (Slip::ClearsBehind, "numbers behind the last decision are cleared"),
    (Slip::ClearsWhenRefused, "the buffer of a refused batch is cleared"),
    (Slip::TouchesTablesWhenRefused, "the tables of a refused batch are touched"),
    (Slip::MovesOnWhenRefused, "a refused batch hands back nothing"),
    (Slip::WritesOneMore, "a number behind the last decision is written"),
    (Slip::WritesBehindTheTables, "a word behind the tables is written"),
    (Slip::ChangesTheBytes, "the caller's bytes are changed"),
    (Slip::RefusalIn32Bits, "the refusal is written as a word"),
];

/// Those that single calls show too, without the independent program.
pub const BESIDE_SINGLE_CALLS: [Slip; 11] = [
    Slip::AsksForTheCutField,
    Slip::LeavesNoRefusal,
    Slip::LeavesOutRefused,
    Slip::StopsAtRefused,
    Slip::StopsWithTheNode,
    Slip::DoesNotCarryTables,
    Slip::KeepsTheTables,
    Slip::OneByteTooEarly,
    Slip::OneByteTooLate,
    Slip::SameBytesElsewhere,
    Slip::HandsBackAll,
];

/// A word that says nothing, so that no dump shows a change of it.
const SILENT: usize = WORDS - 1;

/// The same interface as the library's call.
pub fn batch(
    slip: Slip,
    tables: *mut u32,
    events: *mut Bytes,
    numbers: *mut u32,
    room: usize,
    refusal: *mut u8,
) {
    let (words, events) = unsafe { (&mut *tables.cast::<Words>(), &mut *events) };
    let bytes = unsafe { std::slice::from_raw_parts(events.bytes, events.length) };
    let mut out = Numbers { numbers, room, written: 0 };
    let refuse = |number: u8| unsafe { *refusal = number };
    let fields = fields(slip, bytes, room);
    let bad = unsafe { nucleus_check(tables) } == 11;
    if !has_room(slip, bytes, &fields, room, bad) {
        refuse(if slip == Slip::BadTablesFirst && bad { 11 } else { 14 });
        match slip {
            Slip::ClearsWhenRefused => out.clear(),
            Slip::TouchesTablesWhenRefused => words[SILENT] ^= 1,
            Slip::MovesOnWhenRefused => hand_back(events, bytes.len()),
            _ => {}
        }
        return;
    }
    let Some(read) = run(slip, words, &fields, &mut out) else {
        return refuse(14);
    };
    match slip {
        Slip::ClearsBehind => out.clear(),
        Slip::WritesOneMore => out.put(0),
        Slip::WritesBehindTheTables => unsafe { *tables.add(WORDS) = 0 },
        _ => {}
    }
    match slip {
        Slip::LeavesNoRefusal => {}
        Slip::RefusalIn32Bits => unsafe { refusal.cast::<u32>().write_unaligned(0) },
        _ => refuse(0),
    }
    match slip {
        Slip::OneByteTooEarly => hand_back(events, read.saturating_sub(1)),
        Slip::OneByteTooLate => hand_back(events, (read + 1).min(bytes.len())),
        Slip::SameBytesElsewhere => {
            *events = Bytes { bytes: bytes[read..].to_vec().leak().as_ptr(), length: bytes.len() - read };
        }
        Slip::LengthOfAll => events.bytes = bytes[read..].as_ptr(),
        Slip::HandsBackAll => {}
        Slip::HandsBackAllOfBadTables if bad => {}
        _ => hand_back(events, read),
    }
    if slip == Slip::ChangesTheBytes && read > 0 {
        unsafe { *events.bytes.cast_mut().sub(1) ^= 1 }
    }
}

/// Gives where the unread end begins, or nothing if the buffer is full before that.
fn run(slip: Slip, words: &mut Words, fields: &[&[u8]], out: &mut Numbers) -> Option<usize> {
    let entry = *words;
    let mut read = 0;
    for field in fields {
        if out.is_full() && slip != Slip::AsksOneTooFew {
            return None;
        }
        if slip == Slip::DoesNotCarryTables {
            *words = entry;
        }
        let report = unsafe { nucleus_step(words.as_mut_ptr(), field.as_ptr(), field.len()) };
        read += field.len();
        if slip != Slip::LeavesOutRefused || report.refusal == 0 {
            out.write(report, if slip == Slip::CutsTheWord { 0xFFFF } else { u32::MAX });
        }
        let refused = slip == Slip::StopsAtRefused && report.refusal != 0;
        if refused || slip == Slip::StopsWithTheNode && matches!(report.status, 2 | 3) {
            break;
        }
    }
    if slip == Slip::KeepsTheTables {
        *words = entry;
    }
    Some(read)
}

/// Those that are run.
fn fields(slip: Slip, bytes: &[u8], room: usize) -> Vec<&[u8]> {
    let mut fields = match slip {
        Slip::LengthInOneByte => short_fields(bytes),
        _ => complete_fields(bytes),
    };
    let cut = &bytes[length(&fields)..];
    if slip == Slip::RunsTheCutField && !cut.is_empty() && room >= NUMBERS * (fields.len() + 1) {
        fields.push(cut);
    }
    fields
}

fn length(fields: &[&[u8]]) -> usize {
    fields.iter().map(|field| field.len()).sum()
}

fn short_fields(bytes: &[u8]) -> Vec<&[u8]> {
    let mut fields = Vec::new();
    let mut rest = bytes;
    while rest.len() > 2 && rest.len() - 3 >= rest[2].into() {
        let (field, behind) = rest.split_at(3 + usize::from(rest[2]));
        fields.push(field);
        rest = behind;
    }
    fields
}

fn has_room(slip: Slip, bytes: &[u8], fields: &[&[u8]], room: usize, bad: bool) -> bool {
    let enough = NUMBERS * fields.len();
    let is_cut = length(fields) < bytes.len();
    let formed = fields.iter().filter(|field| nucleus::event::read(field).is_some()).count();
    match slip {
        Slip::AsksOneTooFew => room + 1 >= enough,
        Slip::AsksForTheCutField => room >= enough + if is_cut { NUMBERS } else { 0 },
        Slip::AsksForFormedOnly => room >= NUMBERS * formed,
        Slip::WantsJustEnough => room == enough,
        Slip::CountsWhileRunning => true,
        Slip::BadTablesInShortBuffer => bad || room >= enough,
        _ => room >= enough,
    }
}

fn hand_back(events: &mut Bytes, read: usize) {
    *events = Bytes { bytes: events.bytes.wrapping_add(read), length: events.length - read };
}

/// The lent buffer. A slip may write a few numbers behind it, into the guard.
struct Numbers {
    numbers: *mut u32,
    room: usize,
    written: usize,
}

impl Numbers {
    fn is_full(&self) -> bool {
        self.written + NUMBERS > self.room
    }

    fn put(&mut self, number: u32) {
        unsafe { *self.numbers.add(self.written) = number }
        self.written += 1;
    }

    fn write(&mut self, report: Report, bits: u32) {
        let Report { refusal, status, runner, kind, sender, word } = report;
        [refusal, status, runner, kind, sender].into_iter().for_each(|number| self.put(number.into()));
        self.put(word & bits);
    }

    fn clear(&mut self) {
        while self.written < self.room {
            self.put(0);
        }
    }
}
