//! Events as bytes.

use crate::numbers::{Name, Refusal, DEVICES, KINDS, LINE_DEVICES, NOBODY, TERMINALS};
use crate::thread::Wanted;

pub const SEND: u8 = 16;
pub const RECEIVE: u8 = 17;
pub const REQUEST: u8 = 18;
pub const TRAP: u8 = 19;
pub const TICK: u8 = 20;
pub const INTERRUPT: u8 = 21;

/// What is fixed for one event tag.
pub struct TagFacts {
    pub tag: u8,
    pub length: usize,
    pub needs_runner: bool,
}

/// What the argument of a service may be.
#[derive(Clone, Copy, Debug, PartialEq, Eq)]
pub enum ArgumentRule {
    /// Zero, else malformed.
    Zero,
    /// A thread name; whether it is live is asked later.
    Thread,
    /// A thread name or 255 for oneself.
    ThreadOrOneself,
    /// A device, else malformed.
    Device,
}

/// What is fixed for one service.
pub struct ServiceFacts {
    pub service: u8,
    pub argument: ArgumentRule,
}

/// The one table of event facts.
pub const TAGS: [TagFacts; 6] = [
    TagFacts { tag: SEND, length: 5, needs_runner: true },
    TagFacts { tag: RECEIVE, length: 1, needs_runner: true },
    TagFacts { tag: REQUEST, length: 2, needs_runner: true },
    TagFacts { tag: TRAP, length: 5, needs_runner: true },
    TagFacts { tag: TICK, length: 0, needs_runner: false },
    TagFacts { tag: INTERRUPT, length: 12, needs_runner: false },
];

/// The one table of service facts.
pub const SERVICES: [ServiceFacts; 9] = [
    ServiceFacts { service: 1, argument: ArgumentRule::Zero },
    ServiceFacts { service: 2, argument: ArgumentRule::Zero },
    ServiceFacts { service: 3, argument: ArgumentRule::ThreadOrOneself },
    ServiceFacts { service: 4, argument: ArgumentRule::Thread },
    ServiceFacts { service: 5, argument: ArgumentRule::Thread },
    ServiceFacts { service: 6, argument: ArgumentRule::Thread },
    ServiceFacts { service: 7, argument: ArgumentRule::Zero },
    ServiceFacts { service: 8, argument: ArgumentRule::Zero },
    ServiceFacts { service: 9, argument: ArgumentRule::Device },
];

/// A service request with its argument.
#[derive(Clone, Copy, Debug, PartialEq, Eq)]
pub enum Request {
    CreateBrother,
    CreateSon,
    /// `None` is oneself.
    Terminate(Option<Name>),
    SetManager {
        kind: u8,
        manager: Name,
    },
    GetCpuTime,
    WaitForClock,
    WaitForIo(u8),
}

/// An event whose bytes are well formed. Names may still be dead.
#[derive(Clone, Copy, Debug, PartialEq, Eq)]
pub enum Event {
    Send {
        to: Name,
        word: u32,
    },
    Receive(Wanted),
    Request(Request),
    Trap {
        kind: u8,
        cause: u32,
    },
    Tick,
    /// The device is the picked one.
    Interrupt {
        device: u8,
        status: u32,
    },
}

impl Event {
    pub fn tag(&self) -> u8 {
        match self {
            Event::Send { .. } => SEND,
            Event::Receive(_) => RECEIVE,
            Event::Request(_) => REQUEST,
            Event::Trap { .. } => TRAP,
            Event::Tick => TICK,
            Event::Interrupt { .. } => INTERRUPT,
        }
    }

    pub fn needs_runner(&self) -> bool {
        tag_facts(self.tag()).is_some_and(|facts| facts.needs_runner)
    }

    /// The thread name that has to be live, if the event has one.
    pub fn named_thread(&self) -> Option<Name> {
        match *self {
            Event::Send { to, .. } => Some(to),
            Event::Receive(Wanted::From(name)) => Some(name),
            Event::Request(Request::Terminate(name)) => name,
            Event::Request(Request::SetManager { manager, .. }) => Some(manager),
            _ => None,
        }
    }
}

pub fn tag_facts(tag: u8) -> Option<&'static TagFacts> {
    TAGS.iter().find(|facts| facts.tag == tag)
}

fn service_facts(service: u8) -> Option<&'static ServiceFacts> {
    SERVICES.iter().find(|facts| facts.service == service)
}

/// The device to serve, as refusal and device.
pub fn pick(pending: u64) -> (u8, u8) {
    match picked(pending) {
        Some(device) => (0, device),
        None => (Refusal::Malformed.number(), NOBODY),
    }
}

fn picked(pending: u64) -> Option<u8> {
    if pending >> DEVICES != 0 {
        return None;
    }
    pick_order().find(|&device| pending & (1u64 << device) != 0)
}

/// In which order devices are looked at: the lines, then the terminals, all that transmit before all that receive (document 02, CR 1).
pub fn pick_order() -> impl Iterator<Item = u8> {
    let transmitters = (0..TERMINALS).map(|terminal| LINE_DEVICES + 2 * terminal);
    let receivers = (0..TERMINALS).map(|terminal| LINE_DEVICES + 2 * terminal + 1);
    (0..LINE_DEVICES).chain(transmitters).chain(receivers)
}

/// The bytes as one event, or `None` for refusal 2.
pub fn read(bytes: &[u8]) -> Option<Event> {
    let (tag, value) = only_field(bytes)?;
    if value.len() != tag_facts(tag)?.length {
        return None;
    }
    match tag {
        SEND => Some(Event::Send { to: value[0], word: word(&value[1..]) }),
        RECEIVE => Some(Event::Receive(Wanted::from_number(value[0]))),
        REQUEST => read_request(value[0], value[1]).map(Event::Request),
        TRAP if value[0] < KINDS => Some(Event::Trap { kind: value[0], cause: word(&value[1..]) }),
        TICK => Some(Event::Tick),
        INTERRUPT => {
            let device = picked(long_word(&value[..8]))?;
            Some(Event::Interrupt { device, status: word(&value[8..]) })
        }
        _ => None,
    }
}

fn read_request(service: u8, argument: u8) -> Option<Request> {
    let fits = match service_facts(service)?.argument {
        ArgumentRule::Zero => argument == 0,
        ArgumentRule::Thread | ArgumentRule::ThreadOrOneself => true,
        ArgumentRule::Device => argument < DEVICES,
    };
    if !fits {
        return None;
    }
    match service {
        1 => Some(Request::CreateBrother),
        2 => Some(Request::CreateSon),
        3 => Some(Request::Terminate((argument != NOBODY).then_some(argument))),
        4..=6 => Some(Request::SetManager { kind: service - 4, manager: argument }),
        7 => Some(Request::GetCpuTime),
        8 => Some(Request::WaitForClock),
        9 => Some(Request::WaitForIo(argument)),
        _ => None,
    }
}

/// The first field of the bytes: tag, value, and the bytes behind it.
pub fn first_field(bytes: &[u8]) -> Option<(u8, &[u8], &[u8])> {
    if bytes.len() < 3 {
        return None;
    }
    let length = usize::from(bytes[1]) * 256 + usize::from(bytes[2]);
    let rest = &bytes[3..];
    if rest.len() < length {
        return None;
    }
    Some((bytes[0], &rest[..length], &rest[length..]))
}

fn only_field(bytes: &[u8]) -> Option<(u8, &[u8])> {
    match first_field(bytes)? {
        (tag, value, []) => Some((tag, value)),
        _ => None,
    }
}

/// A big-endian number of four bytes.
pub fn word(bytes: &[u8]) -> u32 {
    bytes.iter().fold(0, |number, &byte| number << 8 | u32::from(byte))
}

/// A big-endian number of eight bytes.
fn long_word(bytes: &[u8]) -> u64 {
    bytes.iter().fold(0, |number, &byte| number << 8 | u64::from(byte))
}

/// Events as their bytes.
pub mod bytes {
    use super::*;

    /// Any field, for a value of at most 65,535 bytes.
    pub fn field(tag: u8, value: &[u8]) -> Vec<u8> {
        let length = u16::try_from(value.len()).expect("value fits a field");
        let mut field = vec![tag];
        field.extend(length.to_be_bytes());
        field.extend(value);
        field
    }

    pub fn send(to: u8, word: u32) -> Vec<u8> {
        byte_and_word(SEND, to, word)
    }

    pub fn receive(from: u8) -> Vec<u8> {
        field(RECEIVE, &[from])
    }

    pub fn request(service: u8, argument: u8) -> Vec<u8> {
        field(REQUEST, &[service, argument])
    }

    pub fn trap(kind: u8, cause: u32) -> Vec<u8> {
        byte_and_word(TRAP, kind, cause)
    }

    pub fn tick() -> Vec<u8> {
        field(TICK, &[])
    }

    pub fn interrupt(pending: u64, status: u32) -> Vec<u8> {
        let mut value = pending.to_be_bytes().to_vec();
        value.extend(status.to_be_bytes());
        field(INTERRUPT, &value)
    }

    fn byte_and_word(tag: u8, byte: u8, word: u32) -> Vec<u8> {
        let mut value = vec![byte];
        value.extend(word.to_be_bytes());
        field(tag, &value)
    }
}
