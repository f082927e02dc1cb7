//! The board's library, called as C code calls it.

use crate::proved::WORDS;

pub type Tables = [u32; WORDS];

/// A decision as the board has it.
#[repr(C)]
pub struct Report {
    pub refusal: u8,
    pub status: u8,
    pub runner: u8,
    pub kind: u8,
    pub sender: u8,
    pub word: u32,
}

/// Bytes that are lent, and then what is left unread of them.
#[repr(C)]
struct Bytes {
    bytes: *const u8,
    length: usize,
}

#[link(name = "board", kind = "static")]
extern "C" {
    fn nucleus_start(tables: *mut Tables);
    fn nucleus_step(tables: *mut Tables, event: *const u8, length: usize) -> Report;
    fn nucleus_batch(tables: *mut Tables, events: *mut Bytes, numbers: *mut u32, room: usize, refusal: *mut u8);
}

pub fn start() -> Tables {
    let mut tables = [0; WORDS];
    unsafe { nucleus_start(&mut tables) };
    tables
}

pub fn step(tables: &mut Tables, event: &[u8]) -> Report {
    unsafe { nucleus_step(tables, event.as_ptr(), event.len()) }
}

/// Its refusal.
pub fn batch(tables: &mut Tables, events: &[u8], out: &mut [u32]) -> u8 {
    let mut bytes = Bytes { bytes: events.as_ptr(), length: events.len() };
    let mut refusal = 0;
    unsafe { nucleus_batch(tables, &mut bytes, out.as_mut_ptr(), out.len(), &mut refusal) };
    refusal
}
