//! One lent room, handed to every entry. What each answers and what it leaves is held to the independent program, byte by byte.

use crate::events::{self, Known};
use crate::judge::{judge, written, Ground};
use crate::lent::{pick, Dumped, Loaded, Picked, Report, Room, LONGEST};
use crate::tally::{count, Tally};
use nucleus::damage::damage;
use nucleus::random::Random;
use nucleus::{load, Bad, Node};
use std::fmt::Debug;

/// Refusal 11 of a step: "for 11 both are 255".
const NO_TABLES: Report = Report { refusal: 11, status: 255, runner: 255, kind: 0, sender: 255, word: 0 };
/// Bytes on either side of a buffer that must stay.
const GUARD: usize = 16;

/// What is tried with a room.
pub struct Plan<'a> {
    /// So many events, one after the other.
    pub events: u64,
    /// A dump to be damaged and read, if the calls that look at no tables are made too, and every length of a buffer is tried.
    pub dump: Option<&'a [u8]>,
}

pub struct Trial<'a> {
    lent: Room,
    random: &'a mut Random,
    tally: &'a mut Tally,
    /// What was answered otherwise.
    wrong: Vec<String>,
}

/// The node that the room stands for, and what was answered otherwise.
pub fn try_room(
    lent: &Room,
    plan: Plan,
    random: &mut Random,
    tally: &mut Tally,
) -> (Result<Node, Ground>, Vec<String>) {
    let said = lent.read();
    let verdict = judge(&said);
    tally.note(&verdict);
    let stands = verdict.is_ok();
    let mut trial = Trial { lent: *lent, random, tally, wrong: Vec::new() };
    trial.check(stands);
    trial.dumps(&verdict, plan.dump.is_some());
    if let Some(dump) = plan.dump {
        trial.loads(written(&said).ok(), dump);
        trial.start();
        trial.pick();
    }
    trial.steps(verdict.clone(), plan.events);
    (verdict, trial.wrong)
}

impl Trial<'_> {
    fn same<T: PartialEq + Debug>(&mut self, what: &str, found: T, expected: T) {
        if found != expected {
            self.wrong.push(format!("{what}: expected {expected:?}, found {found:?}"));
        }
    }

    fn same_bytes(&mut self, what: &str, found: &[u8], expected: &[u8]) {
        if found != expected {
            self.wrong.push(format!("{what}: expected {}, found {}", hex(expected), hex(found)));
        }
    }

    /// Every word of the room, and the guards too.
    fn untouched(&mut self, what: &str, room: &Room, before: Room) {
        if *room != before {
            let places: Vec<usize> = (0..room.words.len()).filter(|&i| room.words[i] != before.words[i]).collect();
            let guards = room.guards_stand();
            self.wrong.push(format!("{what}: the lent words changed at {places:?}, the guards stand: {guards}"));
        }
    }

    fn check(&mut self, stands: bool) {
        let mut room = self.lent;
        let found = room.check();
        self.same("check", found, if stands { 0 } else { 11 });
        self.untouched("check", &room, self.lent);
    }

    /// A buffer that just suffices; a longer one, one a byte short, and any shorter one.
    fn dumps(&mut self, verdict: &Result<Node, Ground>, every_length: bool) {
        let dump = verdict.as_ref().map(Node::dump).ok();
        let just = dump.as_ref().map_or(self.random.below(LONGEST as u64 + 1) as usize, Vec::len);
        let longer = just + self.random.below(60) as usize;
        let shorter = self.random.below(just as u64 + 1) as usize;
        let lengths = [just, longer, just.saturating_sub(1), shorter];
        for length in &lengths[..if every_length { lengths.len() } else { 1 }] {
            self.dump(dump.as_deref(), *length);
        }
    }

    /// Into a buffer of this length. Bytes behind the dump stay, and all of them where it is refused.
    fn dump(&mut self, dump: Option<&[u8]>, length: usize) {
        let mut out: Vec<u8> = (0..length + 2 * GUARD).map(|_| self.random.byte()).collect();
        let mut expected = out.clone();
        let answer = match dump {
            None => Dumped { refusal: 11, length: 0 },
            Some(bytes) if bytes.len() > length => Dumped { refusal: 12, length: 0 },
            Some(bytes) => {
                expected[GUARD..GUARD + bytes.len()].copy_from_slice(bytes);
                Dumped { refusal: 0, length: bytes.len() }
            }
        };
        count(&mut self.tally.dumps, answer.refusal);
        let mut room = self.lent;
        let found = room.dump(&mut out[GUARD..GUARD + length]);
        self.same("dump", found, answer);
        self.same_bytes("the buffer after dump", &out, &expected);
        self.untouched("dump", &room, self.lent);
    }

    /// Reading looks at no tables, so any room will do: the bytes that these numbers would be, and a damaged dump.
    fn loads(&mut self, written: Option<Vec<u8>>, dump: &[u8]) {
        if let Some(bytes) = written {
            self.load(&bytes);
        }
        let (bytes, _) = damage(dump, self.random);
        self.load(&bytes);
    }

    /// Refusal and offset, and the tables of the dump; of bytes that are none, no word changes.
    fn load(&mut self, bytes: &[u8]) {
        let expected = load(bytes);
        let (refusal, offset) = expected.as_ref().map_or_else(|bad: &Bad| bad.numbers(), |_| (0, 0));
        count(&mut self.tally.loads, refusal);
        let mut room = self.lent;
        let found = room.load(bytes);
        let known = self.wrong.len();
        self.same("load", found, Loaded { refusal, offset });
        match &expected {
            Ok(node) => self.shows("load", &mut room, node),
            Err(_) => self.untouched("load", &room, self.lent),
        }
        if self.wrong.len() > known {
            self.wrong.insert(known, format!("bytes {}", hex(&bytes[..bytes.len().min(200)])));
        }
    }

    fn start(&mut self) {
        let mut room = self.lent;
        room.start();
        self.shows("start", &mut room, &Node::start());
    }

    fn pick(&mut self) {
        let bits = self.random.bits() & self.random.bits() & self.random.bits();
        let pending = match self.random.below(5) {
            0 => 0,
            1 => 1 << self.random.below(64),
            2 => bits,
            3 => bits << 16 >> 16,
            // Terminals alone.
            _ => bits << 16 >> 48 << 32,
        };
        let (refusal, device) = nucleus::pick(pending);
        count(&mut self.tally.picks, refusal);
        self.same("pick", pick(pending), Picked { refusal, device });
    }

    /// A step leads from the tables that the last one left.
    fn steps(&mut self, mut verdict: Result<Node, Ground>, events: u64) {
        let mut room = self.lent;
        for _ in 0..events {
            let event = events::any(&Known::in_words(&room.words), self.random);
            let before = room;
            let found = room.step(&event);
            let expected = verdict.as_mut().map_or(NO_TABLES, |node| node.step(&event).into());
            count(&mut self.tally.steps, expected.refusal);
            let known = self.wrong.len();
            self.same("step", found, expected);
            match &verdict {
                Ok(node) if expected.refusal == 0 => self.shows("step", &mut room, node),
                _ => self.untouched("step", &room, before),
            }
            if self.wrong.len() > known {
                self.wrong.insert(known, format!("event {}", hex(&event[..event.len().min(20)])));
            }
        }
    }

    /// The room now stands for this node. Its words are looked at too, and not by the library's dump alone.
    fn shows(&mut self, what: &str, room: &mut Room, node: &Node) {
        let known = self.wrong.len();
        let dump = node.dump();
        self.same("words", room.read().numbers, Ok(node.tables()));
        let mut out = vec![0; dump.len()];
        let found = room.dump(&mut out);
        self.same("dump", found, Dumped { refusal: 0, length: dump.len() });
        self.same_bytes("bytes of the dump", &out, &dump);
        self.same("guards", room.guards_stand(), true);
        if self.wrong.len() > known {
            self.wrong.insert(known, format!("what is left by {what}:"));
        }
    }
}

pub fn hex(bytes: &[u8]) -> String {
    bytes.iter().map(|byte| format!("{byte:02X}")).collect()
}
