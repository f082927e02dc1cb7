//! Events left out, and the others still done by the same threads to the same threads.
//!
//! A thread's name depends on all threads made before it, and who runs depends on all events before. So when events are left out, the
//! later ones come from other threads and mean others by the same names. Here they get the names under which the threads that they meant
//! are known now; and ticks, if wanted, that bring on the thread that did them.

use crate::event::{bytes, read, Event, Request};
use crate::node::Node;
use crate::numbers::FIRST;
use crate::thread::{State, Wanted};
use std::collections::BTreeMap;
use std::ops::Range;

/// A thread, known by the place of the event that made it; the first was made by none.
type Thread = Option<usize>;

/// The events without a run of them. Names that mean nobody any more stay.
pub fn renamed(fields: &[Vec<u8>], run: Range<usize>) -> Vec<Vec<u8>> {
    let mut was = Threads::start();
    let mut is = Threads::start();
    for (place, field) in fields.iter().enumerate() {
        let meant = named(field).and_then(|name| was.thread_of(name));
        was.step(field, place);
        if !run.contains(&place) {
            is.step(&is.with_name(field, meant), place);
        }
    }
    is.fields
}

/// The same, with each event done by the thread that did it, as long as that can run, and only the ticks that this takes. The last event
/// stays whatever it is.
pub fn replayed(fields: &[Vec<u8>], run: Range<usize>) -> Vec<Vec<u8>> {
    let mut was = Threads::start();
    let mut is = Threads::start();
    for (place, field) in fields.iter().enumerate() {
        let meant = named(field).and_then(|name| was.thread_of(name));
        let actor = was.node.runner().and_then(|name| was.thread_of(name));
        let event = read(field);
        was.step(field, place);
        let last = place + 1 == fields.len();
        if run.contains(&place) || (event == Some(Event::Tick) && !last) {
            continue;
        }
        let needs_actor = event.is_some_and(|event| event.needs_runner());
        if !needs_actor || actor.is_some_and(|actor| is.bring_on(actor)) || last {
            is.step(&is.with_name(field, meant), place);
        }
    }
    is.fields
}

/// A run, and which thread has which name in it.
struct Threads {
    node: Node,
    fields: Vec<Vec<u8>>,
    names: BTreeMap<u8, Thread>,
}

/// A ready thread runs after at most so many ticks; one that waits for the clock is ready after 20 more.
const LONGEST_WAIT: usize = 115;

impl Threads {
    fn start() -> Threads {
        Threads { node: Node::start(), fields: Vec::new(), names: BTreeMap::from([(FIRST, None)]) }
    }

    fn step(&mut self, field: &[u8], place: usize) {
        let decision = self.node.step(field);
        self.fields.push(field.to_vec());
        let makes = matches!(read(field), Some(Event::Request(Request::CreateSon | Request::CreateBrother)));
        if makes && decision.refusal == 0 {
            self.names.insert(self.node.name_given_last(), Some(place));
        }
    }

    /// Ticks until this thread runs; false, and none, if that would not help.
    fn bring_on(&mut self, thread: Thread) -> bool {
        let Some(name) = self.name_of(thread) else { return false };
        let mut node = self.node.clone();
        for ticks in 0..=LONGEST_WAIT {
            match node.thread(name).map(|thread| thread.state) {
                Some(State::Running) => {
                    self.fields.extend(vec![bytes::tick(); ticks]);
                    self.node = node;
                    return true;
                }
                Some(State::Ready | State::WaitingForClock) => drop(node.step(&bytes::tick())),
                _ => return false,
            }
        }
        false
    }

    fn thread_of(&self, name: u8) -> Option<Thread> {
        self.names.get(&name).copied()
    }

    fn name_of(&self, thread: Thread) -> Option<u8> {
        self.names.iter().find(|(_, known)| **known == thread).map(|(&name, _)| name)
    }

    /// The field with the name that the thread it meant has now.
    fn with_name(&self, field: &[u8], meant: Option<Thread>) -> Vec<u8> {
        let mut field = field.to_vec();
        if let (Some(at), Some(name)) = (place_of_name(&field), meant.and_then(|thread| self.name_of(thread)))
        {
            field[at] = name;
        }
        field
    }
}

fn named(field: &[u8]) -> Option<u8> {
    place_of_name(field).map(|at| field[at])
}

/// Where an event has the name of a thread.
fn place_of_name(field: &[u8]) -> Option<usize> {
    match read(field)? {
        Event::Send { .. } | Event::Receive(Wanted::From(_)) => Some(3),
        Event::Request(Request::Terminate(Some(_)) | Request::SetManager { .. }) => Some(4),
        _ => None,
    }
}
