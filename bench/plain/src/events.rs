//! Events as bytes. The patterns are the table of tags: tag, length, value.

use crate::numbers::{DEVICES, LINES, RECEIVERS, TRANSMITTERS, TRAP_KINDS};

#[derive(Clone, Copy, Debug)]
pub enum Event {
    ByRunner(Call),
    Tick,
    Interrupt { device: u8, word: u32 },
}

/// What needs a runner: tags 16 to 19.
#[rustfmt::skip]
#[derive(Clone, Copy, Debug)]
pub enum Call {
    Send { to: u8, word: u32 },
    /// From a name, or from anybody (`NOBODY`).
    Receive { wanted: u8 },
    CreateBrother,
    CreateSon,
    /// A name, or oneself (`NOBODY`).
    Terminate { named: u8 },
    SetManager { kind: u8, manager: u8 },
    GetCpuTime,
    WaitForClock,
    WaitForIo { device: u8 },
    Trap { kind: u8, cause: u32 },
}

/// The event of exactly one field, or `None` for refusal 2.
pub fn decode(field: &[u8]) -> Option<Event> {
    let call = match *field {
        [16, 0, 5, to, a, b, c, d] => Call::Send { to, word: u32::from_be_bytes([a, b, c, d]) },
        [17, 0, 1, wanted] => Call::Receive { wanted },
        [18, 0, 2, service, argument] => request(service, argument)?,
        [19, 0, 5, kind, a, b, c, d] if kind < TRAP_KINDS => Call::Trap { kind, cause: u32::from_be_bytes([a, b, c, d]) },
        [20, 0, 0] => return Some(Event::Tick),
        [21, 0, 12, p, q, r, s, t, u, v, w, a, b, c, d] => {
            let device = pick(u64::from_be_bytes([p, q, r, s, t, u, v, w]))?;
            return Some(Event::Interrupt { device, word: u32::from_be_bytes([a, b, c, d]) });
        }
        _ => return None,
    };
    Some(Event::ByRunner(call))
}

fn request(service: u8, argument: u8) -> Option<Call> {
    match (service, argument) {
        (1, 0) => Some(Call::CreateBrother),
        (2, 0) => Some(Call::CreateSon),
        (3, named) => Some(Call::Terminate { named }),
        (4..=6, manager) => Some(Call::SetManager { kind: service - 4, manager }),
        (7, 0) => Some(Call::GetCpuTime),
        (8, 0) => Some(Call::WaitForClock),
        (9, device) if usize::from(device) < DEVICES => Some(Call::WaitForIo { device }),
        _ => None,
    }
}

/// The lowest pending device of lines 3 to 6, else the lowest transmitter, else the lowest receiver; none if nothing is pending or anything
/// over 47 is.
fn pick(pending: u64) -> Option<u8> {
    if pending >> DEVICES != 0 {
        return None;
    }
    let mut classes = [LINES, TRANSMITTERS, RECEIVERS].into_iter().map(|class| pending & class);
    classes.find(|&pending| pending != 0).map(|pending| pending.trailing_zeros() as u8)
}
