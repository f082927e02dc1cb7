//! Threads, messages, held words and answers.

use crate::numbers::{DEVICES, NAMES, NOBODY, SERVICE, TRAP_KINDS};

#[derive(Clone, Copy, Debug, PartialEq, Eq)]
pub enum State {
    Running,
    Ready,
    /// From a name, or from anybody (`NOBODY`).
    Receiving(u8),
    Clock,
    Device(u8),
    /// With the trap's kind.
    Trapped(u8),
}

impl State {
    /// State and detail, as field 2 of the dump has them.
    pub fn numbers(self) -> (u8, u8) {
        match self {
            State::Running => (0, 0),
            State::Ready => (1, 0),
            State::Receiving(wanted) => (2, wanted),
            State::Clock => (3, 0),
            State::Device(device) => (4, device),
            State::Trapped(kind) => (5, kind),
        }
    }

    /// Devices and trap kinds are in their range from here on. Whether a wanted name is live is a table rule.
    pub fn from_numbers(state: u8, detail: u8) -> Option<State> {
        match (state, detail) {
            (0, 0) => Some(State::Running),
            (1, 0) => Some(State::Ready),
            (2, wanted) => Some(State::Receiving(wanted)),
            (3, 0) => Some(State::Clock),
            (4, device) if usize::from(device) < DEVICES => Some(State::Device(device)),
            (5, kind) if kind < TRAP_KINDS => Some(State::Trapped(kind)),
            _ => None,
        }
    }
}

/// What is handed to a thread when it runs, as the decision has it.
#[derive(Clone, Copy, Debug, PartialEq, Eq)]
pub struct Answer {
    pub kind: u8,
    pub sender: u8,
    pub word: u32,
}

impl Answer {
    pub const NONE: Answer = Answer { kind: 0, sender: NOBODY, word: 0 };

    pub fn sender_gone(sender: u8) -> Answer {
        Answer { kind: 3, sender, word: 0 }
    }

    pub fn result(word: u32) -> Answer {
        Answer { kind: 4, sender: SERVICE, word }
    }

    /// Whether sender and word are as the kind allows. Who may have an answer waiting is another rule.
    pub fn is_well_formed(&self) -> bool {
        match self.kind {
            0 => *self == Answer::NONE,
            1 | 2 => self.sender < NAMES,
            3 => self.sender < NAMES && self.word == 0,
            4 => self.sender == SERVICE,
            _ => false,
        }
    }
}

#[derive(Clone, Copy, Debug)]
pub struct Thread {
    pub name: u8,
    /// A name or `NOBODY`.
    pub parent: u8,
    pub state: State,
    /// By trap kind: a name, `NOBODY` or `GONE`.
    pub managers: [u8; 3],
    pub ticks: u32,
    /// Waits until the thread runs.
    pub answer: Answer,
}

impl Thread {
    /// For places that are filled later.
    pub const BLANK: Thread = Thread { name: 0, parent: 0, state: State::Ready, managers: [0; 3], ticks: 0, answer: Answer::NONE };

    pub fn new(name: u8, parent: u8, state: State) -> Thread {
        Thread { name, parent, state, managers: [NOBODY; 3], ticks: 0, answer: Answer::NONE }
    }

    pub fn receives_from(&self, sender: u8) -> bool {
        matches!(self.state, State::Receiving(wanted) if wanted == sender || wanted == NOBODY)
    }

    /// The manager that a trapped thread waits for.
    pub fn trapped_on(&self) -> Option<u8> {
        match self.state {
            State::Trapped(kind) => Some(self.managers[usize::from(kind)]),
            _ => None,
        }
    }

    pub fn wakes_from_outside(&self) -> bool {
        matches!(self.state, State::Clock | State::Device(_))
    }
}

/// In an inbox: an ordinary message or a notice, as `kind` says.
#[derive(Clone, Copy, Debug, Default, PartialEq, Eq)]
pub struct Message {
    pub to: u8,
    pub from: u8,
    pub kind: u8,
    pub word: u32,
}

impl Message {
    pub fn answer(&self) -> Answer {
        Answer { kind: self.kind, sender: self.from, word: self.word }
    }
}

/// A status word that came when nobody waited for its device.
#[derive(Clone, Copy, Debug, Default, PartialEq, Eq)]
pub struct Held {
    pub device: u8,
    pub word: u32,
}
