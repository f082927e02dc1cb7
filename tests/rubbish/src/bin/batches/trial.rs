//! Batches handed over. What each answers and what it leaves is held to the independent program, number by number and byte by byte; and a
//! file of events in one batch to the same file in single calls, and in two batches.

use crate::census::Census;
use crate::memory::{first_unlike, Call, Memory};
use nucleus::batch::{self, complete_fields, Batch, NUMBERS};
use nucleus::random::Random;
use nucleus::Node;
use rubbish::events::{self, Known};
use rubbish::judge::judge;
use rubbish::lent::{Dumped, Report, Room, LONGEST};
use rubbish::trial::hex;
use std::fmt::Debug;

/// With so many numbers every shorter buffer is tried, and so many longer ones: more than a decision has, so that a cut field would find
/// room.
const EVERY_LENGTH: usize = 60;
const LONGER: usize = NUMBERS + 1;
/// So many events for lent tables that no file led to, at most; and for one in eight.
const EVENTS: u64 = 6;
const MANY_EVENTS: u64 = 40;

/// Lent tables, and the node that they stand for.
#[derive(Clone)]
struct Lent {
    room: Room,
    node: Option<Node>,
}

pub struct Trial<'a> {
    pub call: Call<'a>,
    pub random: &'a mut Random,
    pub census: &'a mut Census,
    /// What was answered otherwise. Nothing is handed over behind the first difference.
    pub wrong: Vec<String>,
}

impl Trial<'_> {
    /// Nothing if this, or something before it, differs.
    fn same<T: PartialEq + Debug>(&mut self, what: &str, found: T, expected: T) -> Option<()> {
        if found != expected {
            self.wrong.push(format!("{what}: expected {expected:?}, found {found:?}"));
        }
        self.wrong.is_empty().then_some(())
    }

    fn same_numbers(&mut self, of: &str, found: &[u32], expected: &[u32]) -> Option<()> {
        if let Some(place) = first_unlike(found, expected) {
            let (found, expected) = (found[place], expected[place]);
            self.wrong.push(format!("the numbers of {of}: at {place} expected {expected}, found {found}"));
        }
        self.wrong.is_empty().then_some(())
    }

    /// The tables of a start, whatever stood in the room before.
    fn started(&mut self) -> Room {
        let mut room = Room::filled(|| self.random.bits() as u32);
        room.start();
        room
    }

    // ---- files

    /// A file in pieces of up to so many bytes; then in one batch, in single calls, and in two batches.
    pub fn file(&mut self, file: &[u8], most: u64) {
        self.in_pieces(file, most).and_then(|()| self.as_single_calls(file));
    }

    /// Each piece is handed over behind the unread end of the batch before it, as a board would. Seldom nothing came in between. What waits
    /// long gets longer pieces, else the longest fields would be copied too often.
    fn in_pieces(&mut self, file: &[u8], most: u64) -> Option<()> {
        let room = self.started();
        let mut lent = Lent { room, node: Some(Node::start()) };
        let (mut unread, mut rest) = (Vec::new(), file);
        while !rest.is_empty() {
            let long = self.random.below(unread.len() as u64 + 1) / 2;
            let length = if self.random.one_in(16) { 0 } else { 1 + self.random.below(most) + long };
            let (piece, behind) = rest.split_at(rest.len().min(length as usize));
            unread.extend(piece);
            let batch = self.batch(&mut lent, &unread)?;
            unread.drain(..batch.read);
            rest = behind;
        }
        Some(())
    }

    /// "The result equals single calls in order". And two batches, the second opened by the first one's unread end where it lies, equal
    /// one. The independent program only says where fields end.
    pub fn as_single_calls(&mut self, file: &[u8]) -> Option<()> {
        let cut = self.random.below(file.len() as u64 + 1) as usize;
        let [first, all] = [&file[..cut], file].map(enough);
        let (mut by_one, mut by_two, mut by_step) = (self.started(), self.started(), self.started());
        let fields = complete_fields(file).into_iter();
        let numbers: Vec<u32> = fields.flat_map(|field| in_numbers(by_step.step(field))).collect();

        let mut one = Memory::new(file, all, self.random);
        one.hand_over_all(self.call, &mut by_one);
        self.same("the refusal of one batch", one.refusal(), 0)?;
        self.same_numbers("one batch and single calls", one.numbers(), &numbers)?;
        self.same("the dumps after one batch and after single calls", dump(&mut by_one), dump(&mut by_step))?;

        let mut two = Memory::new(file, all, self.random);
        two.cut(cut);
        two.hand_over(self.call, &mut by_two, 0..first);
        self.same("the refusal of the first of two", two.refusal(), 0)?;
        self.same("the first of two ends with its bytes", two.lengthen(cut, file.len() - cut), true)?;
        two.hand_over(self.call, &mut by_two, first..all);
        self.same("the refusal of the second of two", two.refusal(), 0)?;
        self.same_numbers("two batches and one", two.numbers(), one.numbers())?;
        self.same("the unread ends of two batches and of one", two.unread(), one.unread())?;
        self.same("the dumps after two batches and after one", dump(&mut by_two), dump(&mut by_one))
    }

    // ---- tables that no file led to

    /// Two batches on these tables, the second behind the unread end of the first.
    pub fn tables(&mut self, room: Room) {
        let node = judge(&room.read()).ok();
        let mut lent = Lent { room, node };
        let mut unread = Vec::new();
        let most = if self.random.one_in(8) { MANY_EVENTS } else { EVENTS };
        for _ in 0..2 {
            let known = Known::in_words(&lent.room.words);
            for _ in 0..self.random.below(most + 1) {
                unread.extend(events::any(&known, self.random));
            }
            let Some(batch) = self.batch(&mut lent, &unread) else { return };
            unread.drain(..batch.read);
        }
    }

    // ---- one batch

    /// On copies with buffers of many lengths, then once with room enough.
    fn batch(&mut self, lent: &mut Lent, bytes: &[u8]) -> Option<Batch> {
        let enough = enough(bytes);
        for length in self.lengths(enough) {
            self.hand_over(&mut lent.clone(), bytes, length)?;
        }
        let length = enough + self.random.below(2) as usize;
        let batch = self.hand_over(lent, bytes, length)?;
        self.census.note(bytes, &batch, lent.node.as_ref().map(Node::status));
        Some(batch)
    }

    fn lengths(&mut self, enough: usize) -> Vec<usize> {
        if enough <= EVERY_LENGTH {
            return (0..=enough + LONGER).collect();
        }
        let any = self.random.below(enough as u64) as usize;
        vec![0, 1, any, enough - NUMBERS, enough - 1, enough, enough + 1 + self.random.below(20) as usize]
    }

    /// One call, with a buffer of this length.
    fn hand_over(&mut self, lent: &mut Lent, bytes: &[u8], length: usize) -> Option<Batch> {
        self.census.note_call(length, enough(bytes), lent.node.is_none());
        let before = lent.room;
        let batch = batch::run(lent.node.as_mut(), bytes, length);
        let mut memory = Memory::new(bytes, length, self.random);
        let expected = memory.after(&batch);
        memory.hand_over_all(self.call, &mut lent.room);
        self.wrong.extend(memory.unlike(&expected));
        let right = match &lent.node {
            Some(node) if batch.accepted() > 0 => self.shows(lent.room, node),
            _ => self.untouched(&lent.room, &before),
        };
        if right.is_some() {
            return Some(batch);
        }
        let tables = lent.node.as_ref().map_or("bad", |_| "good");
        let (fields, shown) = (enough(bytes) / NUMBERS, hex(&bytes[..bytes.len().min(60)]));
        let what = format!(
            "{fields} complete fields in {} bytes on {tables} tables, room for {length}",
            bytes.len()
        );
        self.wrong.push(format!("the batch: {what}: {shown}"));
        None
    }

    /// Every word of the room, and the guards too.
    fn untouched(&mut self, room: &Room, before: &Room) -> Option<()> {
        let places: Vec<usize> =
            (0..room.words.len()).filter(|&i| room.words[i] != before.words[i]).collect();
        self.same("words changed where nothing was accepted", places, Vec::new())?;
        self.same("guards", room.guards_stand(), true)
    }

    /// The room now stands for this node. Its words are looked at too, and not by the library's dump alone.
    fn shows(&mut self, mut room: Room, node: &Node) -> Option<()> {
        self.same("words", room.read().numbers, Ok(node.tables()))?;
        self.same("dump", dump(&mut room), (0, node.dump()))?;
        self.same("guards", room.guards_stand(), true)
    }
}

/// Six numbers per complete field.
fn enough(bytes: &[u8]) -> usize {
    NUMBERS * complete_fields(bytes).len()
}

fn in_numbers(report: Report) -> [u32; NUMBERS] {
    let Report { refusal, status, runner, kind, sender, word } = report;
    [refusal.into(), status.into(), runner.into(), kind.into(), sender.into(), word]
}

/// The library's: the refusal and the bytes.
fn dump(room: &mut Room) -> (u8, Vec<u8>) {
    let mut out = vec![0; LONGEST];
    let Dumped { refusal, length } = room.dump(&mut out);
    out.truncate(length);
    (refusal, out)
}
