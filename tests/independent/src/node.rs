//! The tables and the step.

use crate::event::{self, Event, Request};
use crate::numbers::{Name, Refusal, BEAT, BLOCKS, FIRST, NAMES, NOBODY, SLICE, THREADS};
use crate::thread::{Answer, Manager, Message, MessageKind, State, Thread, Wanted, NO_ANSWER};
use std::collections::{BTreeMap, BTreeSet, VecDeque};
use std::fmt;

#[derive(Clone, Copy, Debug, PartialEq, Eq)]
pub enum Status {
    Running,
    Idle,
    Halted,
    Panicked,
}

impl Status {
    pub fn number(self) -> u8 {
        match self {
            Status::Running => 0,
            Status::Idle => 1,
            Status::Halted => 2,
            Status::Panicked => 3,
        }
    }

    pub fn is_stopped(self) -> bool {
        matches!(self, Status::Halted | Status::Panicked)
    }
}

/// What a step gives back, as the document's numbers.
#[derive(Clone, Copy, Debug, PartialEq, Eq)]
pub struct Decision {
    pub refusal: u8,
    pub status: u8,
    pub runner: u8,
    pub kind: u8,
    pub sender: u8,
    pub word: u32,
}

impl fmt::Display for Decision {
    fn fmt(&self, out: &mut fmt::Formatter) -> fmt::Result {
        let Decision { refusal, status, runner, kind, sender, word } = self;
        write!(out, "{refusal} {status} {runner} {kind} {sender} {word}")
    }
}

/// Ordinary messages since the start (or since a dump was read).
#[derive(Clone, Copy, Debug, Default, PartialEq, Eq)]
pub struct Blocks {
    pub queued: u64,
    pub received: u64,
    pub discarded: u64,
}

impl Blocks {
    pub fn in_use(&self) -> u64 {
        self.queued - self.received - self.discarded
    }

    pub fn free(&self) -> u64 {
        BLOCKS as u64 - self.in_use()
    }
}

/// The tables of a node.
#[derive(Clone, Debug, PartialEq, Eq)]
pub struct Node {
    pub(crate) name_given_last: Name,
    pub(crate) runner: Option<Name>,
    /// Ticks the runner has left, 0 with no runner.
    pub(crate) slice: u8,
    pub(crate) ticks_since_beat: u8,
    pub(crate) beats: u32,
    pub(crate) threads: BTreeMap<Name, Thread>,
    /// Front first.
    pub(crate) ready: VecDeque<Name>,
    /// In order of waiting.
    pub(crate) clock: VecDeque<Name>,
    /// Status words by device.
    pub(crate) held: BTreeMap<u8, u32>,
    pub(crate) blocks: Blocks,
}

impl Node {
    /// A fresh node: thread 0 runs.
    pub fn start() -> Node {
        Node {
            name_given_last: FIRST,
            runner: Some(FIRST),
            slice: SLICE,
            ticks_since_beat: 0,
            beats: 0,
            threads: BTreeMap::from([(FIRST, Thread::new(None, State::Running))]),
            ready: VecDeque::new(),
            clock: VecDeque::new(),
            held: BTreeMap::new(),
            blocks: Blocks::default(),
        }
    }

    /// Serve the bytes of one event.
    pub fn step(&mut self, bytes: &[u8]) -> Decision {
        match self.accept(bytes) {
            Ok(event) => {
                let at_once = self.serve(event);
                let handed_over = self.dispatch();
                self.decision(0, at_once.or(handed_over))
            }
            Err(refusal) => self.decision(refusal.number(), None),
        }
    }

    fn decision(&self, refusal: u8, answer: Option<Answer>) -> Decision {
        let (kind, sender, word) = answer.map_or(NO_ANSWER, Answer::numbers);
        let status = self.status().number();
        let runner = self.runner.unwrap_or(NOBODY);
        Decision { refusal, status, runner, kind, sender, word }
    }

    // ---- what can be asked ----

    pub fn status(&self) -> Status {
        if self.runner.is_some() {
            Status::Running
        } else if self.threads.is_empty() {
            Status::Halted
        } else if self.threads.values().any(waits_for_clock_or_device) {
            Status::Idle
        } else {
            Status::Panicked
        }
    }

    pub fn runner(&self) -> Option<Name> {
        self.runner
    }

    pub fn slice(&self) -> u8 {
        self.slice
    }

    pub fn ticks_since_beat(&self) -> u8 {
        self.ticks_since_beat
    }

    pub fn name_given_last(&self) -> Name {
        self.name_given_last
    }

    pub fn threads(&self) -> &BTreeMap<Name, Thread> {
        &self.threads
    }

    pub fn thread(&self, name: Name) -> Option<&Thread> {
        self.threads.get(&name)
    }

    pub fn ready(&self) -> &VecDeque<Name> {
        &self.ready
    }

    pub fn clock(&self) -> &VecDeque<Name> {
        &self.clock
    }

    pub fn held(&self) -> &BTreeMap<u8, u32> {
        &self.held
    }

    pub fn blocks(&self) -> Blocks {
        self.blocks
    }

    pub fn is_live(&self, name: Name) -> bool {
        self.threads.contains_key(&name)
    }

    pub fn device_waiter(&self, device: u8) -> Option<Name> {
        let waits = State::WaitingForDevice(device);
        self.threads.iter().find(|(_, thread)| thread.state == waits).map(|(&name, _)| name)
    }

    // ---- refusals, in the document's order ----

    /// The event, if nothing refuses it.
    fn accept(&self, bytes: &[u8]) -> Result<Event, Refusal> {
        if self.status().is_stopped() {
            return Err(Refusal::Stopped);
        }
        let event = event::read(bytes).ok_or(Refusal::Malformed)?;
        if event.needs_runner() && self.runner.is_none() {
            return Err(Refusal::NoRunner);
        }
        if event.named_thread().is_some_and(|name| !self.is_live(name)) {
            return Err(Refusal::NotLive);
        }
        if self.is_bad_decision(&event) {
            return Err(Refusal::BadDecision);
        }
        if self.needs_block(&event) && self.blocks.free() == 0 {
            return Err(Refusal::NoBlock);
        }
        if self.asks_brother_of_first(&event) {
            return Err(Refusal::BrotherOfFirst);
        }
        if creates(&event) && self.threads.len() >= THREADS {
            return Err(Refusal::NoThreadBlock);
        }
        if self.sets_itself_as_manager(&event) {
            return Err(Refusal::OwnManager);
        }
        if self.wants_taken_device(&event) {
            return Err(Refusal::DeviceTaken);
        }
        Ok(event)
    }

    fn is_bad_decision(&self, event: &Event) -> bool {
        match *event {
            Event::Send { to, word } => self.is_decision_to(to) && word > 1,
            _ => false,
        }
    }

    fn needs_block(&self, event: &Event) -> bool {
        match *event {
            Event::Send { to, .. } => {
                !self.is_decision_to(to) && !self.threads[&to].receives_from(self.running())
            }
            _ => false,
        }
    }

    fn asks_brother_of_first(&self, event: &Event) -> bool {
        *event == Event::Request(Request::CreateBrother) && self.running() == FIRST
    }

    fn sets_itself_as_manager(&self, event: &Event) -> bool {
        match *event {
            Event::Request(Request::SetManager { manager, .. }) => manager == self.running(),
            _ => false,
        }
    }

    fn wants_taken_device(&self, event: &Event) -> bool {
        match *event {
            Event::Request(Request::WaitForIo(device)) => self.device_waiter(device).is_some(),
            _ => false,
        }
    }

    /// Would a word from the runner to this thread be a decision?
    fn is_decision_to(&self, to: Name) -> bool {
        self.threads[&to].trapped_on() == Some(self.running())
    }

    // ---- accepted events ----

    /// Serve the event; the answer is what the runner gets at once.
    fn serve(&mut self, event: Event) -> Option<Answer> {
        match event {
            Event::Send { to, word } => self.send(to, word),
            Event::Receive(wanted) => return self.receive(wanted),
            Event::Request(request) => return self.request(request),
            Event::Trap { kind, cause } => self.trap(kind, cause),
            Event::Tick => self.tick(),
            Event::Interrupt { device, status } => self.interrupt(device, status),
        }
        None
    }

    fn send(&mut self, to: Name, word: u32) {
        let sender = self.running();
        if !self.is_decision_to(to) {
            self.deliver(to, Message { sender, kind: MessageKind::Ordinary, word });
        } else if word == 0 {
            self.continue_trapped(to);
        } else {
            self.end(to);
        }
    }

    /// Give the message to a receiver that waits for it, else queue it.
    fn deliver(&mut self, to: Name, message: Message) {
        if self.threads[&to].receives_from(message.sender) {
            self.make_ready(to, Some(Answer::Received(message)));
        } else {
            if message.kind == MessageKind::Ordinary {
                self.blocks.queued += 1;
            }
            self.thread_mut(to).inbox.push_back(message);
        }
    }

    /// The runner, its manager, continues a trapped thread.
    fn continue_trapped(&mut self, name: Name) {
        let manager = self.running();
        let is_its_notice = |m: &Message| m.kind == MessageKind::Notice && m.sender == name;
        self.thread_mut(manager).inbox.retain(|m| !is_its_notice(m));
        self.make_ready(name, None);
    }

    fn receive(&mut self, wanted: Wanted) -> Option<Answer> {
        let name = self.running();
        let inbox = &mut self.thread_mut(name).inbox;
        let Some(place) = inbox.iter().position(|m| wanted.matches(m.sender)) else {
            self.runner_waits(State::Receiving(wanted));
            return None;
        };
        let message = inbox.remove(place)?;
        if message.kind == MessageKind::Ordinary {
            self.blocks.received += 1;
        }
        Some(Answer::Received(message))
    }

    fn trap(&mut self, kind: u8, cause: u32) {
        let name = self.running();
        match self.threads[&name].manager(kind) {
            Manager::Thread(manager) => {
                self.runner_waits(State::Trapped(kind));
                let notice = Message { sender: name, kind: MessageKind::Notice, word: cause };
                self.deliver(manager, notice);
            }
            Manager::None | Manager::Gone => self.end(name),
        }
    }

    fn request(&mut self, request: Request) -> Option<Answer> {
        let name = self.running();
        match request {
            Request::CreateBrother => {
                let parent = self.threads[&name].parent;
                Some(Answer::Result(self.create(parent).into()))
            }
            Request::CreateSon => Some(Answer::Result(self.create(Some(name)).into())),
            Request::Terminate(named) => {
                self.end(named.unwrap_or(name));
                None
            }
            Request::SetManager { kind, manager } => self.set_manager(kind, manager),
            Request::GetCpuTime => Some(Answer::Result(self.threads[&name].count)),
            Request::WaitForClock => {
                self.runner_waits(State::WaitingForClock);
                self.clock.push_back(name);
                None
            }
            Request::WaitForIo(device) => self.wait_for_io(device),
        }
    }

    /// A new ready thread; gives its name.
    fn create(&mut self, parent: Option<Name>) -> Name {
        let name = self.next_name();
        self.name_given_last = name;
        self.threads.insert(name, Thread::new(parent, State::Ready));
        self.ready.push_back(name);
        name
    }

    /// The first free name behind the one given last.
    fn next_name(&self) -> Name {
        let mut name = successor(self.name_given_last);
        while self.is_live(name) {
            name = successor(name);
        }
        name
    }

    fn set_manager(&mut self, kind: u8, manager: Name) -> Option<Answer> {
        let name = self.running();
        let entry = &mut self.thread_mut(name).managers[usize::from(kind)];
        if *entry == Manager::None {
            *entry = Manager::Thread(manager);
            Some(Answer::Result(0))
        } else {
            self.end(name);
            None
        }
    }

    fn wait_for_io(&mut self, device: u8) -> Option<Answer> {
        match self.held.remove(&device) {
            Some(status) => Some(Answer::Result(status)),
            None => {
                self.runner_waits(State::WaitingForDevice(device));
                None
            }
        }
    }

    /// End the named thread and all that end with it.
    fn end(&mut self, named: Name) {
        let ended = self.ended_set(named);
        self.discard_messages(&ended);
        self.clear_waits(&ended);
        self.threads.retain(|name, _| !ended.contains(name));
        self.mark_managers_gone(&ended);
        self.tell_sender_gone(&ended);
    }

    /// The smallest set with the named thread and, with each member, its
    /// children and every thread trapped on it.
    pub fn ended_set(&self, named: Name) -> BTreeSet<Name> {
        let mut ended = BTreeSet::from([named]);
        let mut to_visit = vec![named];
        while let Some(member) = to_visit.pop() {
            for (&name, thread) in &self.threads {
                let follows = thread.parent == Some(member) || thread.trapped_on() == Some(member);
                if follows && ended.insert(name) {
                    to_visit.push(name);
                }
            }
        }
        ended
    }

    /// Drop what stands in inboxes to or from members.
    fn discard_messages(&mut self, ended: &BTreeSet<Name>) {
        for (name, thread) in &mut self.threads {
            let before = thread.ordinary_messages();
            let receiver_ended = ended.contains(name);
            thread.inbox.retain(|m| !receiver_ended && !ended.contains(&m.sender));
            self.blocks.discarded += before - thread.ordinary_messages();
        }
    }

    /// Take members from the processor and the queues.
    fn clear_waits(&mut self, ended: &BTreeSet<Name>) {
        self.ready.retain(|name| !ended.contains(name));
        self.clock.retain(|name| !ended.contains(name));
        if self.runner.is_some_and(|name| ended.contains(&name)) {
            self.free_processor();
        }
    }

    fn mark_managers_gone(&mut self, ended: &BTreeSet<Name>) {
        for entry in self.threads.values_mut().flat_map(|thread| &mut thread.managers) {
            if matches!(entry, Manager::Thread(name) if ended.contains(name)) {
                *entry = Manager::Gone;
            }
        }
    }

    /// Wake those who receive from a member, in rising order of name.
    fn tell_sender_gone(&mut self, ended: &BTreeSet<Name>) {
        let told: Vec<(Name, Name)> = self
            .threads
            .iter()
            .filter_map(|(&name, thread)| match thread.state {
                State::Receiving(Wanted::From(sender)) if ended.contains(&sender) => Some((name, sender)),
                _ => None,
            })
            .collect();
        for (name, sender) in told {
            self.make_ready(name, Some(Answer::SenderGone(sender)));
        }
    }

    fn tick(&mut self) {
        if let Some(name) = self.runner {
            let thread = self.thread_mut(name);
            thread.count = thread.count.wrapping_add(1);
            self.slice -= 1;
        }
        self.ticks_since_beat += 1;
        if self.ticks_since_beat == BEAT {
            self.beat();
        }
        if let (Some(name), 0) = (self.runner, self.slice) {
            self.free_processor();
            self.make_ready(name, None);
        }
    }

    fn beat(&mut self) {
        self.ticks_since_beat = 0;
        self.beats = self.beats.wrapping_add(1);
        while let Some(name) = self.clock.pop_front() {
            self.make_ready(name, Some(Answer::Result(self.beats)));
        }
    }

    fn interrupt(&mut self, device: u8, status: u32) {
        match self.device_waiter(device) {
            Some(name) => self.make_ready(name, Some(Answer::Result(status))),
            None => {
                self.held.insert(device, status);
            }
        }
    }

    /// If nobody runs, the front of the ready queue does; gives its answer.
    fn dispatch(&mut self) -> Option<Answer> {
        if self.runner.is_some() {
            return None;
        }
        let name = self.ready.pop_front()?;
        self.runner = Some(name);
        self.slice = SLICE;
        let thread = self.thread_mut(name);
        thread.state = State::Running;
        thread.answer.take()
    }

    // ---- small steps ----

    /// The runner, where the event has been checked to have one.
    fn running(&self) -> Name {
        self.runner.expect("an event that needs a runner has one")
    }

    fn thread_mut(&mut self, name: Name) -> &mut Thread {
        self.threads.get_mut(&name).expect("a live thread")
    }

    fn free_processor(&mut self) {
        self.runner = None;
        self.slice = 0;
    }

    fn runner_waits(&mut self, state: State) {
        let name = self.running();
        self.thread_mut(name).state = state;
        self.free_processor();
    }

    /// To the tail of the ready queue, with an answer or none.
    fn make_ready(&mut self, name: Name, answer: Option<Answer>) {
        let thread = self.thread_mut(name);
        thread.state = State::Ready;
        thread.answer = answer;
        self.ready.push_back(name);
    }
}

fn waits_for_clock_or_device(thread: &Thread) -> bool {
    matches!(thread.state, State::WaitingForClock | State::WaitingForDevice(_))
}

fn creates(event: &Event) -> bool {
    matches!(event, Event::Request(Request::CreateBrother | Request::CreateSon))
}

fn successor(name: Name) -> Name {
    (name + 1) % NAMES
}
