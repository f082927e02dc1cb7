//! The table rules, for refusal 11 and for dumps. One pass over the threads finds the place of each name and who is in which state; after
//! it each look-up is one load, and every row is walked once.

use crate::numbers::{BEAT, BLOCKS, DEVICES, FIRST, NAMES, NOBODY, NOTICE, ORDINARY, SLICE};
use crate::threads::{State, Thread};
use crate::Plain;

/// Sets of threads have a bit for each place.
struct Found {
    /// The place of each live name, and `NO_PLACE` for any other number, 254 and 255 too.
    places: [u8; 256],
    running: u32,
    ready: u32,
    clock: u32,
    /// Devices that are waited for.
    waited: u64,
}

/// A bit that is in no set.
const NO_PLACE: u8 = 31;

impl Found {
    fn place(&self, name: u8) -> Option<usize> {
        let place = self.places[usize::from(name)];
        (place != NO_PLACE).then_some(place.into())
    }

    fn is_live(&self, name: u8) -> bool {
        self.places[usize::from(name)] != NO_PLACE
    }

    /// The queue has the threads of the set, each once, and no other.
    fn queues(&self, mut set: u32, queue: &[u8]) -> bool {
        for &name in queue {
            let thread = 1 << self.places[usize::from(name)];
            if set & thread == 0 {
                return false;
            }
            set &= !thread;
        }
        set == 0
    }
}

impl Plain {
    /// The order of rows is part of the layout, so it is asked too. That counts are within the arrays, and numbers stand for states, is
    /// seen to where they are read into rows.
    pub fn meets_rules(&self) -> bool {
        let Some(found) = self.find() else { return false };
        self.last < NAMES
            && self.since < BEAT
            && self.runner_right(&found)
            && found.queues(found.ready, &self.ready)
            && found.queues(found.clock, &self.clock)
            && self.parents_right(&found)
            && self.threads.iter().all(|thread| thread_right(thread, &found))
            && self.held_right(&found)
            && self.messages_right(&found)
    }

    /// None unless the names rise, are 0 to 253, and no two wait for one device.
    fn find(&self) -> Option<Found> {
        let mut found = Found { places: [NO_PLACE; 256], running: 0, ready: 0, clock: 0, waited: 0 };
        let mut least = 0;
        for (place, thread) in self.threads.iter().enumerate() {
            if thread.name < least || thread.name >= NAMES {
                return None;
            }
            least = thread.name + 1;
            found.places[usize::from(thread.name)] = place as u8;
            match thread.state {
                State::Running => found.running |= 1 << place,
                State::Ready => found.ready |= 1 << place,
                State::Clock => found.clock |= 1 << place,
                State::Device(device) if found.waited >> device & 1 == 1 => return None,
                State::Device(device) => found.waited |= 1 << device,
                State::Receiving(_) | State::Trapped(_) => {}
            }
        }
        Some(found)
    }

    fn runner_right(&self, found: &Found) -> bool {
        if self.runner == NOBODY {
            self.slice == 0 && found.running == 0 && found.ready == 0
        } else {
            (1..=SLICE).contains(&self.slice) && found.queues(found.running, &[self.runner])
        }
    }

    /// Thread 0 alone has no parent, and every line of parents comes to it (if 0 has one, no line ends). A line is climbed only as far as
    /// no earlier one went.
    fn parents_right(&self, found: &Found) -> bool {
        let mut rooted = 0u32;
        for place in 0..self.threads.len() {
            let (mut at, mut line) = (place, 0u32);
            while (rooted | line) >> at & 1 == 0 {
                line |= 1 << at;
                let Thread { name, parent, .. } = self.threads[at];
                match found.place(parent) {
                    Some(above) => at = above,
                    None if name == FIRST && parent == NOBODY => rooted |= line,
                    _ => return false,
                }
            }
            // Else the line came back to itself.
            if rooted >> at & 1 == 0 {
                return false;
            }
            rooted |= line;
        }
        true
    }

    /// Held devices rise, and none is waited for.
    fn held_right(&self, found: &Found) -> bool {
        let mut least = 0;
        for held in self.held.iter() {
            if held.device < least || usize::from(held.device) >= DEVICES || found.waited >> held.device & 1 == 1 {
                return false;
            }
            least = held.device + 1;
        }
        true
    }

    /// Receivers rise; both names are live; no receiver waits for it; 20 ordinary ones at most; a notice's sender is trapped on its
    /// receiver and has no other.
    fn messages_right(&self, found: &Found) -> bool {
        let (mut ordinary, mut notices, mut least) = (0, 0u32, 0);
        for message in self.messages.iter() {
            let (Some(to), Some(from)) = (found.place(message.to), found.place(message.from)) else { return false };
            if message.to < least || self.threads[to].receives_from(message.from) {
                return false;
            }
            least = message.to;
            let trapped = self.threads[from].trapped_on() == Some(message.to);
            match message.kind {
                ORDINARY => ordinary += 1,
                NOTICE if trapped && notices >> from & 1 == 0 => notices |= 1 << from,
                _ => return false,
            }
        }
        ordinary <= BLOCKS
    }
}

/// What concerns one thread alone: names wanted and set, the manager it is trapped on, its answer.
fn thread_right(thread: &Thread, found: &Found) -> bool {
    let wait_right = match thread.state {
        State::Receiving(wanted) => wanted == NOBODY || found.is_live(wanted),
        State::Trapped(kind) => found.is_live(thread.managers[usize::from(kind)]),
        _ => true,
    };
    let may_be_set = |manager: u8| manager >= NAMES || (manager != thread.name && found.is_live(manager));
    wait_right && thread.managers.into_iter().all(may_be_set) && answer_right(thread)
}

fn answer_right(thread: &Thread) -> bool {
    thread.answer.is_well_formed() && (thread.answer.kind == 0 || thread.state == State::Ready)
}
