//! 18: names that are not live where a rule makes them live. The name given last and the senders of answers may be anybody's.
//!
//! A name out of its range is the matter of 17, and is left out here.

use super::{Cause, Fault, Field};
use crate::dump::{read_head, read_message, read_thread, CLOCK, HEAD, MESSAGE, READY, THREAD};
use crate::numbers::{GONE, NOBODY};
use crate::tables::{is_name, state, RawThread};

pub fn faults(fields: &[Field]) -> Vec<Fault> {
    let live = Live::of(fields);
    let fault = |field: &Field, cause| Fault { cause, offset: field.offset };
    let of_field = |field| live.causes(field).into_iter().map(move |cause| fault(field, cause));
    fields.iter().flat_map(of_field).collect()
}

/// The names of all fields 2.
struct Live {
    names: [bool; 256],
}

impl Live {
    fn of(fields: &[Field]) -> Live {
        let mut names = [false; 256];
        let values = fields.iter().filter(|field| field.tag == THREAD).map(|field| field.value);
        for thread in values.filter_map(read_thread) {
            names[usize::from(thread.name)] = true;
        }
        Live { names }
    }

    fn is_dead(&self, name: u8) -> bool {
        is_name(name) && !self.names[usize::from(name)]
    }

    fn causes(&self, field: &Field) -> Vec<Cause> {
        let value = field.value;
        let named = match field.tag {
            HEAD => read_head(value).map(|head| vec![(Cause::RunnerNotLive, head.runner)]),
            READY => Some(value.iter().map(|&name| (Cause::ReadyNotLive, name)).collect()),
            CLOCK => Some(value.iter().map(|&name| (Cause::ClockNotLive, name)).collect()),
            MESSAGE => read_message(value).map(|message| {
                vec![(Cause::ReceiverNotLive, message.receiver), (Cause::SenderNotLive, message.sender)]
            }),
            THREAD => read_thread(value).map(|thread| named_by(&thread)),
            _ => None,
        };
        let dead = named.unwrap_or_default().into_iter().filter(|&(_, name)| self.is_dead(name));
        let mut causes: Vec<Cause> = dead.map(|(cause, _)| cause).collect();
        // One fault, however many names.
        causes.dedup();
        let thread = read_thread(value).filter(|_| field.tag == THREAD);
        causes.extend(thread.filter(waits_for_nobody).map(|_| Cause::NoManagerOfTrapped));
        causes
    }
}

fn named_by(thread: &RawThread) -> Vec<(Cause, u8)> {
    let mut named = vec![(Cause::ParentNotLive, thread.parent)];
    if thread.state == state::RECEIVING {
        named.push((Cause::WantedNotLive, thread.detail));
    }
    named.extend(thread.managers.map(|manager| (Cause::ManagerNotLive, manager)));
    named
}

/// "A trapped thread's manager is live": so it is none of these.
fn waits_for_nobody(thread: &RawThread) -> bool {
    let entry = thread.managers.get(usize::from(thread.detail));
    thread.state == state::TRAPPED && matches!(entry, Some(&(NOBODY | GONE)))
}
