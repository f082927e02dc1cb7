//! What runs reach: the refusals, and the states that are hard to come by.
//!
//! A state is noted where an event brings it about, with the node before and after it. So a count says how often something happened, and
//! not how long it lasted; only the states of the tables as a whole ("20 threads") are counted after each accepted event.

use crate::event::{self, Event, Request};
use crate::node::{Decision, Node, Status};
use crate::numbers::{Name, LINE_DEVICES, NAMES, SLICE, THREADS};
use crate::rings::{entries_between, in_ring_of_traps, traps_behind};
use crate::thread::{Manager, MessageKind, State, Thread, Wanted};
use std::collections::{BTreeMap, BTreeSet};

/// The refusals that an event can get are 1 to this number.
pub const EVENT_REFUSALS: usize = 10;

#[derive(Clone, Debug, Default)]
pub struct Census {
    pub events: u64,
    /// By number; 0 counts the accepted events.
    pub refusals: [u64; EVENT_REFUSALS + 1],
    pub states: BTreeMap<&'static str, u64>,
    /// Ticks accepted since somebody ran last.
    idle_ticks: u64,
}

/// Everything that can be noted.
#[rustfmt::skip]
pub const STATES: [&str; 81] = [
    // Full tables and full blocks.
    "20 threads", "20 messages", "20 threads and 20 messages", "8 messages in one inbox", "notice among 20 messages",
    "send to a waiting thread, blocks full", "decision with blocks full", "trap, blocks full", "send to oneself",
    // Traps on traps and rings of managers.
    "trap, notice handed over", "trap, manager receives from another", "trap on a trapped thread", "4 traps in a row",
    "8 threads trapped", "5 notices unread", "trap closes a ring", "trap closes a ring of 3", "ring of manager entries",
    "ring of 4 manager entries", "ring of traps ended", "message to a trapped thread", "message from manager of another kind",
    // Decisions.
    "decision 0, notice unread", "decision 0, notice read", "decision 0, other messages stay", "decision 1", "decision 1 ends many",
    "decision 1 ends the runner",
    // Ending.
    "own end by name", "own end by 255", "another's end with the runner's", "trap without manager", "trap with manager gone",
    "manager set twice", "manager set on gone", "manager set twice ends many", "ended set of 5", "ended set of 10", "ended set of 19",
    "ended by trap, parent lives", "2 told sender gone", "2 told sender gone, of different members", "messages discarded",
    "5 messages discarded", "manager entries become gone", "answer of an ended sender stays", "clock waiter ended", "device waiter ended",
    "waiting answer lost with its thread", "sender gone handed over",
    // Receive.
    "receive from inside the inbox", "receive a notice from the inbox", "receive past other messages, waits",
    "receive from oneself waits", "receive in a partly used slice",
    // Names.
    "names go round", "name in use passed over", "2 names in use passed over",
    // Time.
    "beat with waiters", "beat on slice end, with waiters", "beat on slice end, empty queue", "4 clock waiters",
    "slice ends with empty queue", "idle tick", "20 idle ticks", "beat while idle wakes", "beat while idle wakes 3",
    // Devices.
    "held word taken", "held word overwritten", "5 held words", "20 held words", "48 held words", "interrupt ends idling",
    "interrupt while running wakes", "interrupt with others pending", "transmitter before a lower receiver",
    "receiver with others pending", "8 device waiters",
    // Stops.
    "halts", "panics", "panics with somebody trapped",
];

impl Census {
    /// One event, the decision on it, and the node before and after it.
    pub fn note(&mut self, before: &Node, bytes: &[u8], decision: &Decision, after: &Node) {
        self.events += 1;
        if let Some(count) = self.refusals.get_mut(usize::from(decision.refusal)) {
            *count += 1;
        }
        if decision.refusal != 0 {
            return;
        }
        self.note_tables(after);
        self.note_stops(before, after);
        self.note_ending(before, after);
        self.mark("sender gone handed over", decision.kind == 3);
        match event::read(bytes) {
            Some(Event::Tick) => self.note_tick(before, after),
            Some(Event::Interrupt { device, .. }) => self.note_interrupt(before, device, after, bytes),
            Some(event) => self.note_runner(before, event, after),
            None => {}
        }
        if after.runner().is_some() {
            self.idle_ticks = 0;
        }
    }

    /// Add what another census has counted.
    pub fn add(&mut self, other: &Census) {
        self.events += other.events;
        for (sum, count) in self.refusals.iter_mut().zip(other.refusals) {
            *sum += count;
        }
        for (what, count) in &other.states {
            *self.states.entry(what).or_insert(0) += count;
        }
    }

    pub fn times(&self, what: &str) -> u64 {
        self.states.get(what).copied().unwrap_or(0)
    }

    /// A run from a start has no ticks behind it.
    pub fn start_run(&mut self) {
        self.idle_ticks = 0;
    }

    fn mark(&mut self, what: &'static str, holds: bool) {
        debug_assert!(STATES.contains(&what), "{what} is not in the list");
        if holds {
            *self.states.entry(what).or_insert(0) += 1;
        }
    }

    fn note_tables(&mut self, after: &Node) {
        let full_threads = after.threads().len() == THREADS;
        let full_blocks = after.blocks().free() == 0;
        self.mark("20 threads", full_threads);
        self.mark("20 messages", full_blocks);
        self.mark("20 threads and 20 messages", full_threads && full_blocks);
        self.mark("8 messages in one inbox", after.threads().values().any(|t| t.ordinary_messages() >= 8));
        self.mark("8 threads trapped", count(after, |t| matches!(t.state, State::Trapped(_))) >= 8);
        self.mark("8 device waiters", count(after, |t| matches!(t.state, State::WaitingForDevice(_))) >= 8);
        let notices = unread_notices(after);
        self.mark("5 notices unread", notices >= 5);
        self.mark("notice among 20 messages", full_blocks && notices > 0);
        self.mark("4 clock waiters", after.clock().len() >= 4);
        self.mark("5 held words", after.held().len() >= 5);
        self.mark("20 held words", after.held().len() >= 20);
        self.mark("48 held words", after.held().len() == 48);
    }

    fn note_stops(&mut self, before: &Node, after: &Node) {
        if before.status().is_stopped() {
            return;
        }
        let panics = after.status() == Status::Panicked;
        self.mark("halts", after.status() == Status::Halted);
        self.mark("panics", panics);
        self.mark(
            "panics with somebody trapped",
            panics && after.threads().values().any(|t| t.trapped_on().is_some()),
        );
    }

    fn note_tick(&mut self, before: &Node, after: &Node) {
        let idle = before.runner().is_none();
        self.idle_ticks += u64::from(idle);
        let waiters = before.clock().len();
        let beat = after.ticks_since_beat() == 0;
        let slice_ends = before.slice() == 1;
        let alone = before.ready().is_empty();
        self.mark("idle tick", idle);
        self.mark("20 idle ticks", idle && self.idle_ticks == 20);
        self.mark("beat with waiters", beat && waiters > 0);
        self.mark("beat while idle wakes", beat && idle && waiters > 0);
        self.mark("beat while idle wakes 3", beat && idle && waiters >= 3);
        self.mark("beat on slice end, with waiters", slice_ends && beat && waiters > 0);
        self.mark("beat on slice end, empty queue", slice_ends && beat && waiters > 0 && alone);
        let runs_on = before.runner() == after.runner() && after.slice() == SLICE;
        self.mark("slice ends with empty queue", slice_ends && alone && runs_on);
    }

    fn note_interrupt(&mut self, before: &Node, device: u8, after: &Node, bytes: &[u8]) {
        let waited = before.device_waiter(device).is_some();
        self.mark("held word overwritten", before.held().contains_key(&device));
        self.mark("interrupt ends idling", before.runner().is_none() && after.runner().is_some());
        self.mark("interrupt while running wakes", before.runner().is_some() && waited);
        let pending = bytes[3..11].iter().fold(0u64, |word, &byte| word << 8 | u64::from(byte));
        let others = pending.count_ones() > 1;
        self.mark("interrupt with others pending", others);
        self.mark("transmitter before a lower receiver", pending.trailing_zeros() < device.into());
        self.mark("receiver with others pending", others && device > LINE_DEVICES && device % 2 == 1);
    }

    /// The events that need a runner.
    fn note_runner(&mut self, before: &Node, event: Event, after: &Node) {
        let Some(runner) = before.runner() else { return };
        match event {
            Event::Send { to, word } => self.note_send(before, runner, to, word, after),
            Event::Receive(wanted) => self.note_receive(before, runner, wanted),
            Event::Trap { kind, .. } => self.note_trap(before, runner, kind),
            Event::Request(request) => self.note_request(before, runner, request, after),
            Event::Tick | Event::Interrupt { .. } => {}
        }
    }

    fn note_send(&mut self, before: &Node, runner: Name, to: Name, word: u32, after: &Node) {
        let receiver = &before.threads()[&to];
        let full = before.blocks().free() == 0;
        self.mark("send to oneself", to == runner);
        self.mark("send to a waiting thread, blocks full", receiver.receives_from(runner) && full);
        if receiver.trapped_on() != Some(runner) {
            let trapped = receiver.trapped_on().is_some();
            let other_kind = receiver.managers.contains(&Manager::Thread(runner));
            self.mark("message to a trapped thread", trapped);
            self.mark("message from manager of another kind", trapped && other_kind);
            return;
        }
        let continued = word == 0;
        let unread = notice_is_unread(before, to);
        let others = before.threads()[&runner].inbox.len() > 1;
        self.mark("decision with blocks full", full);
        self.mark("decision 0, notice unread", continued && unread);
        self.mark("decision 0, notice read", continued && !unread);
        self.mark("decision 0, other messages stay", continued && unread && others);
        self.mark("decision 1", !continued);
        self.mark("decision 1 ends many", !continued && ended(before, after).len() >= 4);
        self.mark("decision 1 ends the runner", !continued && !after.is_live(runner));
    }

    fn note_receive(&mut self, before: &Node, runner: Name, wanted: Wanted) {
        let inbox = &before.threads()[&runner].inbox;
        match inbox.iter().position(|m| wanted.matches(m.sender)) {
            Some(place) => {
                self.mark("receive from inside the inbox", place > 0);
                self.mark("receive a notice from the inbox", inbox[place].kind == MessageKind::Notice);
                self.mark("receive in a partly used slice", before.slice() < SLICE);
            }
            None => {
                self.mark("receive past other messages, waits", !inbox.is_empty());
                self.mark("receive from oneself waits", wanted == Wanted::From(runner));
            }
        }
    }

    fn note_trap(&mut self, before: &Node, runner: Name, kind: u8) {
        let manager = match before.threads()[&runner].manager(kind) {
            Manager::Thread(manager) => manager,
            entry => {
                self.mark("trap without manager", entry == Manager::None);
                self.mark("trap with manager gone", entry == Manager::Gone);
                return;
            }
        };
        let thread = &before.threads()[&manager];
        let handed_over = thread.receives_from(runner);
        let receiving = matches!(thread.state, State::Receiving(_));
        let row = traps_behind(before, manager);
        let closes = row.contains(&runner);
        self.mark("trap, notice handed over", handed_over);
        self.mark("trap, blocks full", before.blocks().free() == 0 && !handed_over);
        self.mark("trap, manager receives from another", receiving && !handed_over);
        self.mark("trap on a trapped thread", row.len() > 1);
        self.mark("4 traps in a row", row.len() >= 4);
        self.mark("trap closes a ring", closes);
        self.mark("trap closes a ring of 3", closes && row.len() >= 3);
    }

    fn note_request(&mut self, before: &Node, runner: Name, request: Request, after: &Node) {
        match request {
            Request::Terminate(named) => {
                let name = named.unwrap_or(runner);
                self.mark("own end by name", named == Some(runner));
                self.mark("own end by 255", named.is_none());
                self.mark("another's end with the runner's", name != runner && !after.is_live(runner));
            }
            Request::CreateSon | Request::CreateBrother => {
                let (last, given) = (before.name_given_last(), after.name_given_last());
                let passed = (u16::from(given) + u16::from(NAMES) - u16::from(last) - 1) % u16::from(NAMES);
                self.mark("names go round", given < last);
                self.mark("name in use passed over", passed >= 1);
                self.mark("2 names in use passed over", passed >= 2);
            }
            Request::SetManager { kind, manager } => self.note_manager(before, runner, kind, manager, after),
            Request::WaitForIo(device) => self.mark("held word taken", before.held().contains_key(&device)),
            Request::GetCpuTime | Request::WaitForClock => {}
        }
    }

    fn note_manager(&mut self, before: &Node, runner: Name, kind: u8, manager: Name, after: &Node) {
        let entry = before.threads()[&runner].manager(kind);
        self.mark("manager set twice", entry != Manager::None);
        self.mark("manager set on gone", entry == Manager::Gone);
        self.mark("manager set twice ends many", ended(before, after).len() >= 4);
        if entry == Manager::None {
            let steps = entries_between(before, manager, runner);
            self.mark("ring of manager entries", steps.is_some());
            self.mark("ring of 4 manager entries", steps.is_some_and(|steps| steps >= 3));
        }
    }

    /// Whatever ended threads: a request, a trap, a manager set twice, a decision.
    fn note_ending(&mut self, before: &Node, after: &Node) {
        let set = ended(before, after);
        if set.is_empty() {
            return;
        }
        let members = || set.iter().map(|name| &before.threads()[name]);
        self.mark("ended set of 5", set.len() >= 5);
        self.mark("ended set of 10", set.len() >= 10);
        self.mark("ended set of 19", set.len() >= 19);
        let by_trap = |t: &Thread| t.trapped_on().is_some_and(|m| set.contains(&m));
        let parent_lives = |t: &Thread| t.parent.is_some_and(|p| !set.contains(&p));
        self.mark("ended by trap, parent lives", members().any(|t| by_trap(t) && parent_lives(t)));
        self.mark("ring of traps ended", set.iter().any(|&name| in_ring_of_traps(before, name)));
        let discarded = after.blocks().discarded - before.blocks().discarded;
        self.mark("messages discarded", discarded > 0);
        self.mark("5 messages discarded", discarded >= 5);
        self.mark("clock waiter ended", before.clock().iter().any(|name| set.contains(name)));
        self.mark("device waiter ended", members().any(|t| matches!(t.state, State::WaitingForDevice(_))));
        self.mark("waiting answer lost with its thread", members().any(|t| t.answer.is_some()));
        self.note_survivors(before, after, &set);
    }

    fn note_survivors(&mut self, before: &Node, after: &Node, set: &BTreeSet<Name>) {
        let told: Vec<usize> = set.iter().map(|&name| receivers_outside(before, set, name)).collect();
        let members_told_of = told.iter().filter(|&&number| number > 0).count();
        self.mark("2 told sender gone", told.iter().sum::<usize>() >= 2);
        self.mark("2 told sender gone, of different members", members_told_of >= 2);
        let names_member =
            |t: &Thread| t.managers.iter().any(|m| matches!(m, Manager::Thread(n) if set.contains(n)));
        let survivors = || before.threads().iter().filter(|(name, _)| !set.contains(name));
        self.mark("manager entries become gone", survivors().any(|(_, t)| names_member(t)));
        let due = |t: &Thread| t.answer.map(|answer| answer.numbers());
        let from_member = |t: &Thread| {
            due(t).is_some_and(|(kind, sender, _)| (kind == 1 || kind == 2) && set.contains(&sender))
        };
        self.mark("answer of an ended sender stays", after.threads().values().any(from_member));
    }
}

fn count(node: &Node, wanted: impl Fn(&Thread) -> bool) -> usize {
    node.threads().values().filter(|thread| wanted(thread)).count()
}

fn unread_notices(node: &Node) -> usize {
    let inboxes = node.threads().values().flat_map(|thread| &thread.inbox);
    inboxes.filter(|m| m.kind == MessageKind::Notice).count()
}

/// Is the notice of this trapped thread still in an inbox?
fn notice_is_unread(node: &Node, trapped: Name) -> bool {
    let mut inboxes = node.threads().values().flat_map(|thread| &thread.inbox);
    inboxes.any(|m| m.kind == MessageKind::Notice && m.sender == trapped)
}

/// The threads that an event ended.
fn ended(before: &Node, after: &Node) -> BTreeSet<Name> {
    before.threads().keys().copied().filter(|&name| !after.is_live(name)).collect()
}

/// Threads outside the set that receive from this name alone.
fn receivers_outside(node: &Node, set: &BTreeSet<Name>, name: Name) -> usize {
    let wanted = State::Receiving(Wanted::From(name));
    node.threads().iter().filter(|(other, thread)| !set.contains(other) && thread.state == wanted).count()
}
