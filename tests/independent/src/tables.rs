//! The tables as plain numbers, and the table rules over them.
//!
//! A `Tables` value can hold anything; `broken_rules` judges it.

use crate::node::{Blocks, Node};
use crate::numbers::{Name, BEAT, BLOCKS, DEVICES, FIRST, GONE, KINDS, NAMES, NOBODY, SLICE, SSI, THREADS};
use crate::thread::{Answer, Manager, Message, MessageKind, State, Thread, NO_ANSWER};
use std::collections::{BTreeMap, VecDeque};

#[derive(Clone, Debug, Default, PartialEq, Eq)]
pub struct Tables {
    pub status: u8,
    pub name_given_last: u8,
    pub runner: u8,
    pub slice: u8,
    pub ticks_since_beat: u8,
    pub beats: u32,
    pub threads: Vec<RawThread>,
    pub ready: Vec<u8>,
    pub clock: Vec<u8>,
    /// Those of one receiver oldest first.
    pub messages: Vec<RawMessage>,
    pub held: Vec<RawHeld>,
}

#[derive(Clone, Copy, Debug, PartialEq, Eq)]
pub struct RawThread {
    pub name: u8,
    pub parent: u8,
    pub state: u8,
    pub detail: u8,
    pub managers: [u8; 3],
    pub count: u32,
    pub answer_kind: u8,
    pub answer_sender: u8,
    pub answer_word: u32,
}

#[derive(Clone, Copy, Debug, PartialEq, Eq)]
pub struct RawMessage {
    pub receiver: u8,
    pub sender: u8,
    pub kind: u8,
    pub word: u32,
}

#[derive(Clone, Copy, Debug, PartialEq, Eq)]
pub struct RawHeld {
    pub device: u8,
    pub word: u32,
}

/// Numbers of the thread states.
pub mod state {
    pub const RUNNING: u8 = 0;
    pub const READY: u8 = 1;
    pub const RECEIVING: u8 = 2;
    pub const CLOCK: u8 = 3;
    pub const DEVICE: u8 = 4;
    pub const TRAPPED: u8 = 5;
}

/// The table rules, in the document's order.
#[derive(Clone, Copy, Debug, PartialEq, Eq, PartialOrd, Ord)]
pub enum Rule {
    /// Every value is in its range.
    Ranges,
    /// Live names are distinct and at most 20.
    LiveNames,
    /// Parents are live, without a cycle, 0 alone has none.
    Parents,
    /// State, runner, ready queue and clock queue agree, each name once.
    Queues,
    /// A device has one waiter or a held status or neither.
    Devices,
    /// Names wanted and set are live, no manager is oneself.
    NamesWantedAndSet,
    /// A trapped thread's manager is live.
    TrappedManager,
    /// A receiver's inbox holds no match.
    NoMatchInInbox,
    /// Message senders and receivers are live.
    MessageNames,
    /// At most 20 ordinary messages.
    MessageCount,
    /// A notice's sender is trapped, its receiver the manager waited for, one at most.
    Notices,
    /// Status is what Dispatch says.
    Status,
    /// Nobody is ready without a runner.
    ReadyNeedsRunner,
    /// Slice 1 to 5 with a runner, 0 without.
    Slice,
    /// Answers have their forms and wait only for ready threads.
    Answers,
}

impl Tables {
    pub fn meets_rules(&self) -> bool {
        self.broken_rules().is_empty()
    }

    /// Every rule that does not hold.
    pub fn broken_rules(&self) -> Vec<Rule> {
        let judged = [
            (Rule::Ranges, self.ranges_hold()),
            (Rule::LiveNames, self.live_names_hold()),
            (Rule::Parents, self.parents_hold()),
            (Rule::Queues, self.queues_hold()),
            (Rule::Devices, self.devices_hold()),
            (Rule::NamesWantedAndSet, self.names_wanted_and_set_hold()),
            (Rule::TrappedManager, self.trapped_managers_hold()),
            (Rule::NoMatchInInbox, self.inboxes_hold_no_match()),
            (Rule::MessageNames, self.message_names_hold()),
            (Rule::MessageCount, self.message_count_holds()),
            (Rule::Notices, self.notices_hold()),
            (Rule::Status, self.status == self.status_by_dispatch()),
            (Rule::ReadyNeedsRunner, self.has_runner() || !self.anybody_ready()),
            (Rule::Slice, self.slice_holds()),
            (Rule::Answers, self.threads.iter().all(answer_holds)),
        ];
        judged.iter().filter(|(_, holds)| !holds).map(|&(rule, _)| rule).collect()
    }

    fn ranges_hold(&self) -> bool {
        self.status <= 3
            && is_name(self.name_given_last)
            && is_name_or_nobody(self.runner)
            && self.slice <= SLICE
            && self.ticks_since_beat < BEAT
            && self.threads.iter().all(thread_in_range)
            && self.ready.iter().chain(&self.clock).all(|&name| is_name(name))
            && self.messages.iter().all(message_in_range)
            && self.held.iter().all(|held| held.device < DEVICES)
    }

    fn live_names_hold(&self) -> bool {
        self.threads.len() <= THREADS
            && self.threads.iter().all(|thread| is_name(thread.name) && self.times_live(thread.name) == 1)
    }

    fn parents_hold(&self) -> bool {
        self.threads.iter().all(|thread| {
            let has_none = thread.parent == NOBODY;
            has_none == (thread.name == FIRST)
                && (has_none || self.is_live(thread.parent))
                && self.line_of_parents_ends(thread)
        })
    }

    /// Going from parent to parent comes to a thread without one.
    pub(crate) fn line_of_parents_ends(&self, thread: &RawThread) -> bool {
        let mut parent = thread.parent;
        for _ in 0..self.threads.len() {
            match self.thread(parent) {
                Some(next) => parent = next.parent,
                None => return true,
            }
        }
        self.thread(parent).is_none()
    }

    fn queues_hold(&self) -> bool {
        self.are_in_state(&self.runners(), state::RUNNING)
            && self.are_in_state(&self.ready, state::READY)
            && self.are_in_state(&self.clock, state::CLOCK)
    }

    /// The row has the threads of this state, each once, and no other.
    pub(crate) fn are_in_state(&self, row: &[u8], state: u8) -> bool {
        let mut row = row.to_vec();
        let mut names: Vec<u8> =
            self.threads.iter().filter(|thread| thread.state == state).map(|thread| thread.name).collect();
        row.sort_unstable();
        names.sort_unstable();
        row == names
    }

    fn devices_hold(&self) -> bool {
        let waited =
            self.threads.iter().filter(|thread| thread.state == state::DEVICE).map(|thread| thread.detail);
        let mut devices: Vec<u8> = waited.chain(self.held.iter().map(|held| held.device)).collect();
        devices.sort_unstable();
        devices.windows(2).all(|pair| pair[0] != pair[1])
    }

    fn names_wanted_and_set_hold(&self) -> bool {
        self.threads.iter().all(|thread| {
            let wanted_live =
                thread.state != state::RECEIVING || thread.detail == NOBODY || self.is_live(thread.detail);
            wanted_live && thread.managers.iter().all(|&manager| self.may_be_manager(thread, manager))
        })
    }

    fn may_be_manager(&self, thread: &RawThread, manager: u8) -> bool {
        manager == NOBODY || manager == GONE || (self.is_live(manager) && manager != thread.name)
    }

    fn trapped_managers_hold(&self) -> bool {
        self.threads
            .iter()
            .filter(|thread| thread.state == state::TRAPPED)
            .all(|thread| manager_waited_for(thread).is_some_and(|manager| self.is_live(manager)))
    }

    pub(crate) fn inboxes_hold_no_match(&self) -> bool {
        self.threads.iter().filter(|thread| thread.state == state::RECEIVING).all(|thread| {
            self.messages
                .iter()
                .filter(|message| message.receiver == thread.name)
                .all(|message| thread.detail != NOBODY && thread.detail != message.sender)
        })
    }

    fn message_names_hold(&self) -> bool {
        self.messages.iter().all(|message| self.is_live(message.sender) && self.is_live(message.receiver))
    }

    pub(crate) fn message_count_holds(&self) -> bool {
        self.messages.iter().filter(|message| message.kind == 1).count() <= BLOCKS
    }

    fn notices_hold(&self) -> bool {
        let notices: Vec<&RawMessage> = self.messages.iter().filter(|message| message.kind == 2).collect();
        notices.iter().all(|notice| {
            let goes_to_manager = self
                .thread(notice.sender)
                .is_some_and(|sender| manager_waited_for(sender) == Some(notice.receiver));
            let of_this_sender = notices.iter().filter(|other| other.sender == notice.sender).count();
            goes_to_manager && of_this_sender == 1
        })
    }

    pub(crate) fn status_by_dispatch(&self) -> u8 {
        let waits = |thread: &RawThread| thread.state == state::CLOCK || thread.state == state::DEVICE;
        if self.has_runner() {
            0
        } else if self.threads.is_empty() {
            2
        } else if self.threads.iter().any(waits) {
            1
        } else {
            3
        }
    }

    fn slice_holds(&self) -> bool {
        if self.has_runner() {
            (1..=SLICE).contains(&self.slice)
        } else {
            self.slice == 0
        }
    }

    pub(crate) fn has_runner(&self) -> bool {
        self.runner != NOBODY
    }

    /// The runner, or nobody.
    pub(crate) fn runners(&self) -> Vec<u8> {
        if self.has_runner() {
            vec![self.runner]
        } else {
            Vec::new()
        }
    }

    pub(crate) fn anybody_ready(&self) -> bool {
        !self.ready.is_empty() || self.threads.iter().any(|thread| thread.state == state::READY)
    }

    pub(crate) fn thread(&self, name: u8) -> Option<&RawThread> {
        self.threads.iter().find(|thread| thread.name == name)
    }

    pub(crate) fn is_live(&self, name: u8) -> bool {
        is_name(name) && self.thread(name).is_some()
    }

    fn times_live(&self, name: u8) -> usize {
        self.threads.iter().filter(|thread| thread.name == name).count()
    }
}

pub(crate) fn is_name(number: u8) -> bool {
    number < NAMES
}

pub(crate) fn is_name_or_nobody(number: u8) -> bool {
    is_name(number) || number == NOBODY
}

fn thread_in_range(thread: &RawThread) -> bool {
    let detail = thread.detail;
    let detail_in_range = match thread.state {
        state::RUNNING | state::READY | state::CLOCK => detail == 0,
        state::RECEIVING => is_name_or_nobody(detail),
        state::DEVICE => detail < DEVICES,
        state::TRAPPED => detail < KINDS,
        _ => false,
    };
    is_name(thread.name) && is_name_or_nobody(thread.parent) && detail_in_range && thread.answer_kind <= 4
}

fn message_in_range(message: &RawMessage) -> bool {
    is_name(message.receiver) && is_name(message.sender) && MessageKind::from_number(message.kind).is_some()
}

/// The manager a trapped thread waits for, if its entry is a name.
pub(crate) fn manager_waited_for(thread: &RawThread) -> Option<u8> {
    if thread.state != state::TRAPPED {
        return None;
    }
    thread.managers.get(usize::from(thread.detail)).copied().filter(|&manager| is_name(manager))
}

fn answer_holds(thread: &RawThread) -> bool {
    let (kind, sender, word) = answer_numbers(thread);
    let well_formed = match kind {
        0 => (kind, sender, word) == NO_ANSWER,
        1 | 2 => is_name(sender),
        3 => is_name(sender) && word == 0,
        4 => sender == SSI,
        _ => false,
    };
    well_formed && (kind == 0 || thread.state == state::READY)
}

fn answer_numbers(thread: &RawThread) -> (u8, u8, u32) {
    (thread.answer_kind, thread.answer_sender, thread.answer_word)
}

// ---- from a node and to a node ----

impl Node {
    /// The node's tables as plain numbers, in the dump's order.
    pub fn tables(&self) -> Tables {
        Tables {
            status: self.status().number(),
            name_given_last: self.name_given_last,
            runner: self.runner.unwrap_or(NOBODY),
            slice: self.slice,
            ticks_since_beat: self.ticks_since_beat,
            beats: self.beats,
            threads: self.threads.iter().map(|(&name, thread)| raw_thread(name, thread)).collect(),
            ready: self.ready.iter().copied().collect(),
            clock: self.clock.iter().copied().collect(),
            messages: self.threads.iter().flat_map(|(&name, thread)| raw_inbox(name, thread)).collect(),
            held: self.held.iter().map(|(&device, &word)| RawHeld { device, word }).collect(),
        }
    }

    /// The node of plain tables, if they meet the rules.
    pub fn from_tables(tables: &Tables) -> Option<Node> {
        if !tables.meets_rules() {
            return None;
        }
        let mut threads = BTreeMap::new();
        for raw in &tables.threads {
            threads.insert(raw.name, thread_of(raw)?);
        }
        let mut queued = 0;
        for raw in &tables.messages {
            let kind = MessageKind::from_number(raw.kind)?;
            let message = Message { sender: raw.sender, kind, word: raw.word };
            threads.get_mut(&raw.receiver)?.inbox.push_back(message);
            if kind == MessageKind::Ordinary {
                queued += 1;
            }
        }
        Some(Node {
            name_given_last: tables.name_given_last,
            runner: (tables.runner != NOBODY).then_some(tables.runner),
            slice: tables.slice,
            ticks_since_beat: tables.ticks_since_beat,
            beats: tables.beats,
            threads,
            ready: tables.ready.iter().copied().collect(),
            clock: tables.clock.iter().copied().collect(),
            held: tables.held.iter().map(|held| (held.device, held.word)).collect(),
            blocks: Blocks { queued, ..Blocks::default() },
        })
    }
}

fn raw_thread(name: Name, thread: &Thread) -> RawThread {
    let (state, detail) = thread.state.numbers();
    let (answer_kind, answer_sender, answer_word) = thread.answer.map_or(NO_ANSWER, Answer::numbers);
    RawThread {
        name,
        parent: thread.parent.unwrap_or(NOBODY),
        state,
        detail,
        managers: thread.managers.map(Manager::number),
        count: thread.count,
        answer_kind,
        answer_sender,
        answer_word,
    }
}

fn raw_inbox(receiver: Name, thread: &Thread) -> Vec<RawMessage> {
    thread
        .inbox
        .iter()
        .map(|m| RawMessage { receiver, sender: m.sender, kind: m.kind.number(), word: m.word })
        .collect()
}

fn thread_of(raw: &RawThread) -> Option<Thread> {
    Some(Thread {
        parent: (raw.parent != NOBODY).then_some(raw.parent),
        state: State::from_numbers(raw.state, raw.detail)?,
        managers: raw.managers.map(Manager::from_number),
        count: raw.count,
        answer: Answer::from_numbers(raw.answer_kind, raw.answer_sender, raw.answer_word),
        inbox: VecDeque::new(),
    })
}
