//! busy SEED EVENTS small|big: writes EVENTS event fields of a busy node to standard output, at limits of 20 threads and 20 blocks, or of
//! 64 and 128: nearly all threads are alive, nearly all blocks are used, and a quarter of the threads can run.
//!
//! Events are drawn at random, and tried on plain Rust first. One that would leave the node less busy is drawn again: that halts or
//! panics it, or takes threads, messages or threads that can run below what a busy node has. Refused events come up as they do: a full
//! table of threads, no free block, a device that is waited for, a dead name.

use nucleus::random::Random;
use std::io::{self, Write};
use std::process::ExitCode;

/// A nucleus of plain Rust, at its limits.
trait Nucleus: Clone {
    const THREADS: usize;
    const BLOCKS: usize;
    fn start() -> Self;
    /// The status after it.
    fn step(&mut self, field: &[u8]) -> u8;
    fn live(&self) -> Vec<u8>;
    fn active(&self) -> usize;
    fn ordinary(&self) -> usize;
}

macro_rules! nucleus {
    ($limits:ident) => {
        impl Nucleus for $limits::Plain {
            const THREADS: usize = $limits::numbers::THREADS;
            const BLOCKS: usize = $limits::numbers::BLOCKS;

            fn start() -> Self {
                $limits::Plain::start()
            }

            fn step(&mut self, field: &[u8]) -> u8 {
                $limits::Plain::step(self, field).status
            }

            fn live(&self) -> Vec<u8> {
                $limits::Plain::live(self)
            }

            fn active(&self) -> usize {
                $limits::Plain::active(self)
            }

            fn ordinary(&self) -> usize {
                $limits::Plain::ordinary(self)
            }
        }
    };
}

nucleus!(plain);
nucleus!(big);

const TICK: [u8; 3] = [20, 0, 0];

/// What is drawn, and how often.
#[derive(Clone, Copy)]
enum Kind {
    Tick,
    Interrupt,
    Send,
    Receive,
    ReceiveFrom,
    Create,
    End,
    SetManager,
    Trap,
    CpuTime,
    WaitForClock,
    WaitForDevice,
    Malformed,
}

const KINDS: [(u64, Kind); 13] = [
    (20, Kind::Tick),
    (12, Kind::Interrupt),
    (22, Kind::Send),
    (18, Kind::Receive),
    (4, Kind::ReceiveFrom),
    (4, Kind::Create),
    (2, Kind::End),
    (3, Kind::SetManager),
    (3, Kind::Trap),
    (3, Kind::CpuTime),
    (4, Kind::WaitForClock),
    (4, Kind::WaitForDevice),
    (1, Kind::Malformed),
];

struct Busy<N> {
    random: Random,
    node: N,
}

impl<N: Nucleus> Busy<N> {
    fn new(seed: u64) -> Busy<N> {
        Busy { random: Random::new(seed), node: N::start() }
    }

    fn next_event(&mut self) -> Vec<u8> {
        let mut event = self.draw();
        for _ in 0..50 {
            if self.stays_busy(&event) {
                break;
            }
            event = self.draw();
        }
        self.node.step(&event);
        event
    }

    /// Nothing that counts falls below what a busy node has.
    fn stays_busy(&self, event: &[u8]) -> bool {
        let mut after = self.node.clone();
        let keeps = |was: usize, is: usize, least: usize| is >= least || is >= was;
        after.step(event) < 2
            && keeps(self.node.live().len(), after.live().len(), N::THREADS - 2)
            && keeps(self.node.ordinary(), after.ordinary(), N::BLOCKS - N::BLOCKS / 8)
            && keeps(self.node.active(), after.active(), N::THREADS / 4)
    }

    /// While there is room, threads and messages come more often.
    fn draw(&mut self) -> Vec<u8> {
        let live = self.node.live();
        let kind = if live.len() + 1 < N::THREADS && self.random.one_in(3) {
            Kind::Create
        } else if self.node.ordinary() + 1 < N::BLOCKS && self.random.one_in(3) {
            Kind::Send
        } else {
            self.random.weighted(&KINDS)
        };
        let name = self.random.choose(&live).unwrap_or(0);
        self.event(kind, name)
    }

    fn event(&mut self, kind: Kind, name: u8) -> Vec<u8> {
        let [a, b, c, d] = self.word().to_be_bytes();
        let trap_kind = self.random.below(3) as u8;
        let device = self.random.below(48) as u8;
        match kind {
            Kind::Tick => TICK.into(),
            Kind::Interrupt => {
                let [p, q, r, s, t, u, v, w] = (1u64 << device).to_be_bytes();
                vec![21, 0, 12, p, q, r, s, t, u, v, w, a, b, c, d]
            }
            Kind::Send => vec![16, 0, 5, name, a, b, c, d],
            Kind::Receive => vec![17, 0, 1, 255],
            Kind::ReceiveFrom => vec![17, 0, 1, name],
            Kind::Create => vec![18, 0, 2, 1 + self.random.below(2) as u8, 0],
            Kind::End => vec![18, 0, 2, 3, name],
            Kind::SetManager => vec![18, 0, 2, 4 + trap_kind, name],
            Kind::Trap => vec![19, 0, 5, trap_kind, a, b, c, d],
            Kind::CpuTime => vec![18, 0, 2, 7, 0],
            Kind::WaitForClock => vec![18, 0, 2, 8, 0],
            Kind::WaitForDevice => vec![18, 0, 2, 9, device],
            Kind::Malformed => vec![self.random.byte(), 0, 1, 0],
        }
    }

    /// 0 and 1 are a manager's decisions.
    fn word(&mut self) -> u32 {
        match self.random.below(4) {
            0 => 0,
            1 => 1,
            _ => self.random.bits() as u32,
        }
    }
}

fn write_events<N: Nucleus>(seed: u64, count: usize) -> io::Result<()> {
    let mut busy = Busy::<N>::new(seed);
    let events: Vec<u8> = (0..count).flat_map(|_| busy.next_event()).collect();
    io::stdout().write_all(&events)
}

fn main() -> ExitCode {
    let arguments: Vec<String> = std::env::args().skip(1).collect();
    let numbers: Vec<u64> = arguments.iter().filter_map(|a| a.parse().ok()).collect();
    let written = match (&numbers[..], arguments.get(2).map(String::as_str)) {
        (&[seed, count], Some("small")) => write_events::<plain::Plain>(seed, count as usize),
        (&[seed, count], Some("big")) => write_events::<big::Plain>(seed, count as usize),
        _ => {
            eprintln!("usage: busy SEED EVENTS small|big");
            return ExitCode::FAILURE;
        }
    };
    ExitCode::from(u8::from(written.is_err()))
}
