//! names EVENTS small|big block|spread: writes EVENTS event fields to standard output: creations and endings at limits of 20 threads and 20
//! blocks, or of 64 and 128. Before each creation all the threads but one that there is room for are alive: 19, or 63.
//!
//! Thread 0 makes sons until they are so many. Then it makes one more and ends one, over and over. From the second round of the names on
//! the same threads stay. Their names are a block from 0 on, so that one creation in each round has them all in its way; or they are
//! spread over the names, so that each is in the way of another creation. Nothing else differs: event by event both files ask for the
//! same service, with as many threads alive.

use std::io::{self, Write};
use std::process::ExitCode;

/// A nucleus of plain Rust, at its limits.
trait Nucleus {
    /// As many are alive before each creation.
    const ALIVE: usize;
    fn start() -> Self;
    /// Refusal, runner, and the word of the answer.
    fn step(&mut self, field: &[u8]) -> (u8, u8, u32);
    /// By rising name.
    fn live(&self) -> Vec<u8>;
}

macro_rules! nucleus {
    ($limits:ident) => {
        impl Nucleus for $limits::Plain {
            const ALIVE: usize = $limits::numbers::THREADS - 1;

            fn start() -> Self {
                $limits::Plain::start()
            }

            fn step(&mut self, field: &[u8]) -> (u8, u8, u32) {
                let decision = $limits::Plain::step(self, field);
                (decision.refusal, decision.runner, decision.answer.word)
            }

            fn live(&self) -> Vec<u8> {
                $limits::Plain::live(self)
            }
        }
    };
}

nucleus!(plain);
nucleus!(big);

const NAMES: usize = plain::numbers::NAMES as usize;

/// Bytes of a request.
const LENGTH: usize = 5;

/// The names that stay. 0 is always among them: all others would end with it.
fn block(alive: usize) -> Vec<u8> {
    (0..alive).map(|k| k as u8).collect()
}

fn spread(alive: usize) -> Vec<u8> {
    (0..alive).map(|k| (k * NAMES / alive) as u8).collect()
}

struct Script<N> {
    node: N,
    staying: Vec<u8>,
    events: Vec<u8>,
}

impl<N: Nucleus> Script<N> {
    fn new(staying: fn(usize) -> Vec<u8>) -> Script<N> {
        Script { node: N::start(), staying: staying(N::ALIVE), events: Vec::new() }
    }

    /// Every event is accepted, and thread 0 goes on running. What it is handed.
    fn request(&mut self, service: u8, argument: u8) -> u32 {
        let field: [u8; LENGTH] = [18, 0, 2, service, argument];
        let (refusal, runner, word) = self.node.step(&field);
        assert_eq!((refusal, runner), (0, 0), "{field:?}");
        self.events.extend(field);
        word
    }

    fn create(&mut self) -> u8 {
        self.request(2, 0) as u8
    }

    /// The newcomer, unless its name is to stay: then the lowest name that is not.
    fn end_one(&mut self, newcomer: u8) {
        let may_end = |name: &u8| !self.staying.contains(name);
        let ended = if may_end(&newcomer) { Some(newcomer) } else { self.node.live().into_iter().find(may_end) };
        self.request(3, ended.expect("one more is alive than names stay"));
    }

    fn write(mut self, count: usize) -> io::Result<()> {
        for _ in 1..N::ALIVE {
            self.create();
        }
        while self.events.len() < count * LENGTH {
            assert_eq!(self.node.live().len(), N::ALIVE);
            let newcomer = self.create();
            self.end_one(newcomer);
        }
        io::stdout().write_all(&self.events[..count * LENGTH])
    }
}

fn main() -> ExitCode {
    let arguments: Vec<String> = std::env::args().skip(1).collect();
    let words: Vec<&str> = arguments.iter().map(String::as_str).collect();
    let [count, limits, stand] = words[..] else { return usage() };
    let Ok(count) = count.parse() else { return usage() };
    let written = match (limits, stand) {
        ("small", "block") => Script::<plain::Plain>::new(block).write(count),
        ("small", "spread") => Script::<plain::Plain>::new(spread).write(count),
        ("big", "block") => Script::<big::Plain>::new(block).write(count),
        ("big", "spread") => Script::<big::Plain>::new(spread).write(count),
        _ => return usage(),
    };
    ExitCode::from(u8::from(written.is_err()))
}

fn usage() -> ExitCode {
    eprintln!("usage: names EVENTS small|big block|spread");
    ExitCode::FAILURE
}
