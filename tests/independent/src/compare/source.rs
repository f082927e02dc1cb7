//! Event files, made again from their seed as often as they are needed and never kept.

use crate::generator::{Form, Generator};
use crate::rubbish;
use std::fmt;
use std::io::{self, Read};

#[derive(Clone, Copy, Debug, PartialEq, Eq)]
pub enum Source {
    Mixed { seed: u64, events: u64 },
    Rubbish { seed: u64 },
}

impl Source {
    /// The bytes, piece by piece.
    pub fn pieces(self) -> Box<dyn Iterator<Item = Vec<u8>> + Send> {
        match self {
            Source::Mixed { seed, events } => {
                let mut generator = Generator::new(seed, events, Form::Stream);
                Box::new(std::iter::from_fn(move || generator.next_event().map(|(event, _)| event)))
            }
            Source::Rubbish { seed } => Box::new(std::iter::once(rubbish::file(seed))),
        }
    }

    pub fn reader(self) -> Pieces {
        Pieces { pieces: self.pieces(), piece: Vec::new(), place: 0 }
    }

    /// A short name, for files.
    pub fn name(self) -> String {
        match self {
            Source::Mixed { seed, events } => format!("mixed-{seed}-{events}"),
            Source::Rubbish { seed } => format!("rubbish-{seed}"),
        }
    }
}

impl fmt::Display for Source {
    fn fmt(&self, out: &mut fmt::Formatter) -> fmt::Result {
        match self {
            Source::Mixed { seed, events } => write!(out, "mixed events, seed {seed}, {events} events"),
            Source::Rubbish { seed } => write!(out, "rubbish, seed {seed} ({:?})", rubbish::kind_of(*seed)),
        }
    }
}

/// Pieces as something to read from.
pub struct Pieces {
    pieces: Box<dyn Iterator<Item = Vec<u8>> + Send>,
    piece: Vec<u8>,
    place: usize,
}

impl Read for Pieces {
    fn read(&mut self, buffer: &mut [u8]) -> io::Result<usize> {
        while self.place == self.piece.len() {
            match self.pieces.next() {
                Some(piece) => (self.piece, self.place) = (piece, 0),
                None => return Ok(0),
            }
        }
        let length = buffer.len().min(self.piece.len() - self.place);
        buffer[..length].copy_from_slice(&self.piece[self.place..self.place + length]);
        self.place += length;
        Ok(length)
    }
}
