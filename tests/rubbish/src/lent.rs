//! The room as a board lends it, and the entries of the library.

use crate::layout::{self, Said, WORDS};
use nucleus::{Decision, Tables as Numbers};

/// The bytes of the lent room.
pub const SIZE: usize = WORDS * 4;
/// The longest dump.
pub const LONGEST: usize = 1241;

#[repr(C)]
#[derive(Clone, Copy, Debug, PartialEq, Eq)]
pub struct Report {
    pub refusal: u8,
    pub status: u8,
    pub runner: u8,
    pub kind: u8,
    pub sender: u8,
    pub word: u32,
}

impl From<Decision> for Report {
    fn from(decision: Decision) -> Report {
        let Decision { refusal, status, runner, kind, sender, word } = decision;
        Report { refusal, status, runner, kind, sender, word }
    }
}

#[repr(C)]
#[derive(Clone, Copy, Debug, PartialEq, Eq)]
pub struct Dumped {
    pub refusal: u8,
    pub length: usize,
}

/// What reading bytes answers, and where they are bad.
#[repr(C)]
#[derive(Clone, Copy, Debug, PartialEq, Eq)]
pub struct Loaded {
    pub refusal: u8,
    pub offset: usize,
}

#[repr(C)]
#[derive(Clone, Copy, Debug, PartialEq, Eq)]
pub struct Picked {
    pub refusal: u8,
    pub device: u8,
}

#[repr(C)]
#[derive(Clone, Copy, Debug, PartialEq, Eq)]
pub struct Sizes {
    pub tables: u32,
    pub report: u32,
    pub dump: u32,
}

/// Bytes that are lent: where they begin, and how many there are.
#[repr(C)]
#[derive(Clone, Copy, Debug, PartialEq, Eq)]
pub struct Bytes {
    pub bytes: *const u8,
    pub length: usize,
}

// A slice is a pointer, then a length. No entry asks anything of the words or bytes that it is lent.
#[link(name = "nucleus", kind = "static")]
extern "C" {
    fn nucleus_start(tables: *mut u32);
    pub fn nucleus_step(tables: *mut u32, event: *const u8, length: usize) -> Report;
    pub fn nucleus_batch(tables: *mut u32, events: *mut Bytes, numbers: *mut u32, room: usize, refusal: *mut u8);
    pub fn nucleus_check(tables: *const u32) -> u8;
    fn nucleus_dump(tables: *const u32, out: *mut u8, room: usize) -> Dumped;
    fn nucleus_load(tables: *mut u32, bytes: *const u8, length: usize) -> Loaded;
    fn nucleus_pick(pending: u64) -> Picked;
    fn nucleus_sizes() -> Sizes;
}

pub fn pick(pending: u64) -> Picked {
    unsafe { nucleus_pick(pending) }
}

pub fn sizes() -> Sizes {
    unsafe { nucleus_sizes() }
}

/// So many that the words are aligned to 4 and not to 8.
const GUARD: usize = 36;
const GUARDED: [u8; GUARD] = [0xA5; GUARD];

/// The lent room between guards.
#[repr(C, align(8))]
#[derive(Clone, Copy, PartialEq, Eq)]
pub struct Room {
    before: [u8; GUARD],
    pub words: [u32; WORDS],
    behind: [u8; GUARD],
}

// Each entry is handed a pointer that may be written through, also where it must not: else the compiler could take it that nothing changed.
impl Room {
    pub fn filled(word: impl FnMut() -> u32) -> Room {
        let mut room = Room { before: GUARDED, words: [0; WORDS], behind: GUARDED };
        room.words.fill_with(word);
        room
    }

    /// These numbers, with such words where a word says nothing.
    pub fn of(numbers: &Numbers, word: impl FnMut() -> u32) -> Room {
        let mut room = Room::filled(word);
        layout::put(&mut room.words, numbers, layout::LIMITS);
        room
    }

    pub fn read(&self) -> Said {
        layout::read(&self.words)
    }

    pub fn start(&mut self) {
        unsafe { nucleus_start(self.words.as_mut_ptr()) }
    }

    pub fn step(&mut self, event: &[u8]) -> Report {
        unsafe { nucleus_step(self.words.as_mut_ptr(), event.as_ptr(), event.len()) }
    }

    pub fn check(&mut self) -> u8 {
        unsafe { nucleus_check(self.words.as_mut_ptr()) }
    }

    pub fn dump(&mut self, out: &mut [u8]) -> Dumped {
        unsafe { nucleus_dump(self.words.as_mut_ptr(), out.as_mut_ptr(), out.len()) }
    }

    pub fn load(&mut self, bytes: &[u8]) -> Loaded {
        unsafe { nucleus_load(self.words.as_mut_ptr(), bytes.as_ptr(), bytes.len()) }
    }

    pub fn guards_stand(&self) -> bool {
        self.before == GUARDED && self.behind == GUARDED
    }
}
