//! What the runner can do, and the events of it as far as the node's state allows them.

use super::Generator;
use crate::event::bytes;
use crate::node::Node;
use crate::numbers::{Name, DEVICES, FIRST, NOBODY, SLICE, THREADS};
use crate::rings::{entries_between, traps_behind};
use crate::thread::{Manager, State};

#[derive(Clone, Copy, Debug, PartialEq, Eq)]
pub enum Action {
    Son,
    /// Not with a full table.
    SonInRoom,
    Brother,
    SendAny,
    SendSelf,
    /// To one who does not wait for it.
    SendBusy,
    /// To one who waits for it.
    SendWaiting,
    /// To a thread trapped on somebody else.
    SendTrapped,
    ReceiveAny,
    /// From a sender in the own inbox.
    ReceiveHere,
    ReceiveFrom,
    ReceiveSelf,
    /// An entry that is not set yet.
    SetManager,
    /// The same, with the next live name: makes rings of many.
    SetNext,
    /// The same, with one whose managers lead back: closes a ring.
    SetRing,
    /// The same, with an own child, which then can end its parent.
    SetSon,
    /// An entry that is set or gone.
    SetAgain,
    /// With a manager.
    Trap,
    /// Without one.
    TrapAlone,
    /// With a manager that is trapped, best on the runner in the end.
    TrapOnTrapped,
    /// A trap with a manager gone, or setting it again.
    UseGone,
    Continue,
    EndTrapped,
    BadDecision,
    EndAny,
    EndNewest,
    EndMany,
    EndSelf,
    CpuTime,
    WaitClock,
    /// With somebody else ready, so that the node goes on.
    WaitClockBeside,
    WaitDevice,
    /// For a device with neither waiter nor word.
    WaitFree,
    WaitTaken,
    /// For a device with a held word.
    TakeHeld,
    Tick,
    /// Ticks to the end of the slice, if another thread has a decision to make.
    PassOn,
    /// Ticks that bring a slice end and a beat together.
    TickToBeat,
    Interrupt,
    /// A word for a device with neither waiter nor word.
    HoldNew,
    DeadName,
    OddName,
    OwnManager,
    BrotherOfFirst,
    BadValue,
    Malformed,
}

use Action::*;

impl Generator {
    /// The event of an action, if the node's state allows one.
    pub(super) fn try_action(&mut self, action: Action, runner: Name) -> Option<Vec<u8>> {
        match action {
            Son => Some(bytes::request(2, 0)),
            SonInRoom => (self.node.threads().len() < THREADS).then(|| bytes::request(2, 0)),
            Brother => Some(bytes::request(1, 0)),
            SendAny | SendSelf | SendBusy | SendWaiting | SendTrapped => self.send(action, runner),
            ReceiveAny => Some(bytes::receive(NOBODY)),
            ReceiveHere => self.receive_here(runner),
            ReceiveFrom => Some(bytes::receive(self.other(runner)?)),
            ReceiveSelf => Some(bytes::receive(runner)),
            SetManager | SetNext | SetRing | SetSon | SetAgain | OwnManager => {
                self.set_manager(action, runner)
            }
            Trap | TrapAlone | TrapOnTrapped => self.trap(action, runner),
            UseGone => self.use_gone(runner),
            Continue | EndTrapped | BadDecision => self.decide(action, runner),
            EndAny | EndNewest | EndMany | EndSelf => self.end(action, runner),
            CpuTime => Some(bytes::request(7, 0)),
            WaitClock | WaitClockBeside => self.wait_for_clock(action),
            WaitDevice | WaitFree | WaitTaken | TakeHeld => self.wait_for_device(action),
            Tick => Some(self.some_ticks()),
            PassOn => self.pass_on(runner),
            TickToBeat => Some(self.tick_to_beat()),
            Interrupt => Some(self.interrupt()),
            HoldNew => self.hold_new(),
            DeadName => self.dead_name_event(),
            OddName => Some(self.odd_name_event()),
            BrotherOfFirst => (runner == FIRST).then(|| bytes::request(1, 0)),
            BadValue => Some(self.bad_value_event()),
            Malformed => Some(self.malformed()),
        }
    }

    fn send(&mut self, action: Action, runner: Name) -> Option<Vec<u8>> {
        let receivers = match action {
            SendSelf => vec![runner],
            SendBusy => self.names(|node, name| is_busy(node, runner, name)),
            SendWaiting => self.names(|node, name| node.threads()[&name].receives_from(runner)),
            SendTrapped => self.trapped_on_others(runner),
            _ => self.names(|_, name| name != runner),
        };
        let to = self.random.choose(&receivers)?;
        Some(bytes::send(to, self.word()))
    }

    /// Threads trapped on somebody else; often those alone that have the runner as manager of another kind.
    fn trapped_on_others(&mut self, runner: Name) -> Vec<Name> {
        let on_others =
            |node: &Node, name| node.threads()[&name].trapped_on().is_some_and(|manager| manager != runner);
        let known = self.names(|node, name| {
            on_others(node, name) && node.threads()[&name].managers.contains(&Manager::Thread(runner))
        });
        if !known.is_empty() && self.random.one_in(2) {
            return known;
        }
        self.names(on_others)
    }

    fn receive_here(&mut self, runner: Name) -> Option<Vec<u8>> {
        let senders: Vec<Name> = self.node.threads()[&runner].inbox.iter().map(|m| m.sender).collect();
        let sender = self.random.choose(&senders)?;
        let wanted = if self.random.one_in(3) { NOBODY } else { sender };
        Some(bytes::receive(wanted))
    }

    fn set_manager(&mut self, action: Action, runner: Name) -> Option<Vec<u8>> {
        let kind = match action {
            OwnManager => self.kind(),
            SetAgain => self.kind_with(runner, |entry| entry != Manager::None)?,
            _ => self.kind_with(runner, |entry| entry == Manager::None)?,
        };
        let manager = match action {
            OwnManager => runner,
            SetNext => self.next_live(runner)?,
            SetRing => self.leads_back(runner)?,
            SetSon => self.child_of(runner)?,
            _ => self.other(runner)?,
        };
        Some(bytes::request(4 + kind, manager))
    }

    /// Another thread whose managers, or theirs, have the runner among them.
    fn leads_back(&mut self, runner: Name) -> Option<Name> {
        let others = self.names(|node, name| name != runner && entries_between(node, name, runner).is_some());
        self.random.choose(&others)
    }

    fn child_of(&mut self, runner: Name) -> Option<Name> {
        let children = self.names(|node, name| node.threads()[&name].parent == Some(runner));
        self.random.choose(&children)
    }

    fn trap(&mut self, action: Action, runner: Name) -> Option<Vec<u8>> {
        let kind = match action {
            TrapAlone => self.kind_with(runner, |entry| !matches!(entry, Manager::Thread(_)))?,
            TrapOnTrapped => self.kind_on_trapped(runner)?,
            _ => self.kind_with(runner, |entry| matches!(entry, Manager::Thread(_)))?,
        };
        Some(bytes::trap(kind, self.word()))
    }

    fn kind_on_trapped(&mut self, runner: Name) -> Option<u8> {
        let row = |node: &Node, entry| match entry {
            Manager::Thread(manager) => traps_behind(node, manager),
            _ => Vec::new(),
        };
        let node = self.node.clone();
        let closing = self.kind_with(runner, |entry| row(&node, entry).contains(&runner));
        closing.or_else(|| self.kind_with(runner, |entry| row(&node, entry).len() > 1))
    }

    fn use_gone(&mut self, runner: Name) -> Option<Vec<u8>> {
        let kind = self.kind_with(runner, |entry| entry == Manager::Gone)?;
        if self.random.one_in(2) {
            return Some(bytes::trap(kind, self.word()));
        }
        Some(bytes::request(4 + kind, self.other(runner)?))
    }

    fn decide(&mut self, action: Action, runner: Name) -> Option<Vec<u8>> {
        let trapped = self.trapped_on(runner);
        let mut to = self.random.choose(&trapped)?;
        if action == EndTrapped && self.random.one_in(2) {
            let most = trapped.iter().copied().max_by_key(|&name| self.node.ended_set(name).len());
            to = most.unwrap_or(to);
        }
        let word = match action {
            Continue => 0,
            EndTrapped => 1,
            _ => self.word().max(2),
        };
        Some(bytes::send(to, word))
    }

    fn trapped_on(&self, manager: Name) -> Vec<Name> {
        self.names(|node, name| node.threads()[&name].trapped_on() == Some(manager))
    }

    fn end(&mut self, action: Action, runner: Name) -> Option<Vec<u8>> {
        let name = match action {
            EndNewest => self.newest_or_leaf(runner)?,
            EndMany => self.biggest_end()?,
            EndSelf if self.random.one_in(2) => runner,
            EndSelf => NOBODY,
            _ => self.any_live(),
        };
        Some(bytes::request(3, name))
    }

    /// The thread made last, or seldom one that ends alone: most of the old ones stay while names go round.
    fn newest_or_leaf(&mut self, runner: Name) -> Option<Name> {
        let newest = self.node.name_given_last();
        if newest != FIRST && self.node.is_live(newest) {
            return Some(newest);
        }
        if !self.random.one_in(8) {
            return None;
        }
        let leaves = self.names(|node, name| name != runner && node.ended_set(name).len() == 1);
        self.random.choose(&leaves)
    }

    /// The name, 0 left out, whose end takes most threads along.
    fn biggest_end(&self) -> Option<Name> {
        let spared = |name: &Name| !self.node.ended_set(*name).contains(&FIRST);
        let names = self.names(|_, _| true).into_iter();
        names.filter(spared).max_by_key(|&name| self.node.ended_set(name).len())
    }

    fn wait_for_clock(&mut self, action: Action) -> Option<Vec<u8>> {
        if action == WaitClockBeside && self.node.ready().is_empty() {
            return None;
        }
        Some(bytes::request(8, 0))
    }

    fn wait_for_device(&mut self, action: Action) -> Option<Vec<u8>> {
        let device = match action {
            WaitDevice => self.device(),
            WaitFree => self.free_device()?,
            TakeHeld => {
                let held: Vec<u8> = self.node.held().keys().copied().collect();
                self.random.choose(&held)?
            }
            _ => {
                let waited = self.waited_devices();
                self.random.choose(&waited)?
            }
        };
        Some(bytes::request(9, device))
    }

    fn hold_new(&mut self) -> Option<Vec<u8>> {
        let device = self.free_device()?;
        Some(self.interrupt_of(device))
    }

    /// A device with neither waiter nor word.
    fn free_device(&mut self) -> Option<u8> {
        let node = &self.node;
        let is_free =
            |&device: &u8| !node.held().contains_key(&device) && node.device_waiter(device).is_none();
        let free: Vec<u8> = (0..DEVICES).filter(is_free).collect();
        self.random.choose(&free)
    }

    fn pass_on(&mut self, runner: Name) -> Option<Vec<u8>> {
        let deciders = self.names(can_decide);
        if deciders.is_empty() || deciders.contains(&runner) {
            return None;
        }
        self.ticks_left = u64::from(self.node.slice()) - 1;
        Some(bytes::tick())
    }

    fn some_ticks(&mut self) -> Vec<u8> {
        if self.random.one_in(4) {
            self.ticks_left = self.random.below(SLICE.into());
        }
        bytes::tick()
    }
}

/// Is it running, ready, or woken by time or a device?
pub(super) fn is_active(node: &Node, name: Name) -> bool {
    !matches!(node.threads()[&name].state, State::Receiving(_) | State::Trapped(_))
}

/// Is it running or ready, with a thread trapped on it?
pub(super) fn can_decide(node: &Node, name: Name) -> bool {
    let can_run = matches!(node.threads()[&name].state, State::Running | State::Ready);
    can_run && node.threads().values().any(|thread| thread.trapped_on() == Some(name))
}

/// Would a send from the runner need a block?
fn is_busy(node: &Node, runner: Name, name: Name) -> bool {
    let thread = &node.threads()[&name];
    !thread.receives_from(runner) && thread.trapped_on() != Some(runner)
}
