//! Threads, messages and answers.

use crate::numbers::{Name, GONE, NOBODY, SSI};
use std::collections::VecDeque;

/// Whom a receiver waits for.
#[derive(Clone, Copy, Debug, PartialEq, Eq)]
pub enum Wanted {
    Anybody,
    From(Name),
}

impl Wanted {
    pub fn matches(self, sender: Name) -> bool {
        match self {
            Wanted::Anybody => true,
            Wanted::From(name) => name == sender,
        }
    }

    pub fn number(self) -> u8 {
        match self {
            Wanted::Anybody => NOBODY,
            Wanted::From(name) => name,
        }
    }

    pub fn from_number(number: u8) -> Wanted {
        match number {
            NOBODY => Wanted::Anybody,
            name => Wanted::From(name),
        }
    }
}

/// What a thread does now.
#[derive(Clone, Copy, Debug, PartialEq, Eq)]
pub enum State {
    Running,
    Ready,
    Receiving(Wanted),
    WaitingForClock,
    WaitingForDevice(u8),
    /// With the trap's kind.
    Trapped(u8),
}

impl State {
    /// The state's number and its detail, as the dump has them.
    pub fn numbers(self) -> (u8, u8) {
        match self {
            State::Running => (0, 0),
            State::Ready => (1, 0),
            State::Receiving(wanted) => (2, wanted.number()),
            State::WaitingForClock => (3, 0),
            State::WaitingForDevice(device) => (4, device),
            State::Trapped(kind) => (5, kind),
        }
    }

    pub fn from_numbers(state: u8, detail: u8) -> Option<State> {
        match (state, detail) {
            (0, 0) => Some(State::Running),
            (1, 0) => Some(State::Ready),
            (2, wanted) => Some(State::Receiving(Wanted::from_number(wanted))),
            (3, 0) => Some(State::WaitingForClock),
            (4, device) => Some(State::WaitingForDevice(device)),
            (5, kind) => Some(State::Trapped(kind)),
            _ => None,
        }
    }
}

/// One manager entry of a thread.
#[derive(Clone, Copy, Debug, PartialEq, Eq)]
pub enum Manager {
    None,
    Thread(Name),
    Gone,
}

impl Manager {
    pub fn number(self) -> u8 {
        match self {
            Manager::None => NOBODY,
            Manager::Thread(name) => name,
            Manager::Gone => GONE,
        }
    }

    pub fn from_number(number: u8) -> Manager {
        match number {
            NOBODY => Manager::None,
            GONE => Manager::Gone,
            name => Manager::Thread(name),
        }
    }
}

/// What stands in an inbox.
#[derive(Clone, Copy, Debug, PartialEq, Eq)]
pub enum MessageKind {
    /// Uses one of the common blocks.
    Ordinary,
    /// Uses a block of the trapped thread's own.
    Notice,
}

impl MessageKind {
    pub fn number(self) -> u8 {
        match self {
            MessageKind::Ordinary => 1,
            MessageKind::Notice => 2,
        }
    }

    pub fn from_number(number: u8) -> Option<MessageKind> {
        match number {
            1 => Some(MessageKind::Ordinary),
            2 => Some(MessageKind::Notice),
            _ => None,
        }
    }
}

#[derive(Clone, Copy, Debug, PartialEq, Eq)]
pub struct Message {
    pub sender: Name,
    pub kind: MessageKind,
    pub word: u32,
}

/// What a thread is told when it runs on.
#[derive(Clone, Copy, Debug, PartialEq, Eq)]
pub enum Answer {
    Received(Message),
    SenderGone(Name),
    Result(u32),
}

impl Answer {
    /// Kind, sender and word.
    pub fn numbers(self) -> (u8, u8, u32) {
        match self {
            Answer::Received(message) => (message.kind.number(), message.sender, message.word),
            Answer::SenderGone(sender) => (3, sender, 0),
            Answer::Result(word) => (4, SSI, word),
        }
    }

    /// The answer with these numbers; `None` for kind 0 and unknown kinds.
    pub fn from_numbers(kind: u8, sender: u8, word: u32) -> Option<Answer> {
        match kind {
            3 => Some(Answer::SenderGone(sender)),
            4 => Some(Answer::Result(word)),
            _ => MessageKind::from_number(kind).map(|kind| Answer::Received(Message { sender, kind, word })),
        }
    }
}

/// Numbers of "no answer": kind, sender and word.
pub const NO_ANSWER: (u8, u8, u32) = (0, NOBODY, 0);

#[derive(Clone, Debug, PartialEq, Eq)]
pub struct Thread {
    pub parent: Option<Name>,
    pub state: State,
    pub managers: [Manager; 3],
    /// Ticks it has run.
    pub count: u32,
    /// The answer not yet handed over.
    pub answer: Option<Answer>,
    /// Oldest first.
    pub inbox: VecDeque<Message>,
}

impl Thread {
    pub fn new(parent: Option<Name>, state: State) -> Thread {
        Thread { parent, state, managers: [Manager::None; 3], count: 0, answer: None, inbox: VecDeque::new() }
    }

    pub fn manager(&self, kind: u8) -> Manager {
        self.managers[usize::from(kind)]
    }

    /// The manager a trapped thread waits for.
    pub fn trapped_on(&self) -> Option<Name> {
        match self.state {
            State::Trapped(kind) => match self.manager(kind) {
                Manager::Thread(name) => Some(name),
                _ => None,
            },
            _ => None,
        }
    }

    /// Does it wait for a message of this sender?
    pub fn receives_from(&self, sender: Name) -> bool {
        match self.state {
            State::Receiving(wanted) => wanted.matches(sender),
            _ => false,
        }
    }

    pub fn ordinary_messages(&self) -> u64 {
        self.inbox.iter().filter(|m| m.kind == MessageKind::Ordinary).count() as u64
    }
}
