//! Random events that look at the node's state.
//!
//! The generator keeps a node of its own. It goes from mood to mood; each
//! mood is a table of weighted actions, and each action looks at the node
//! for names, devices and words that lead somewhere. Events that would halt
//! or panic the node are taken back until the run's last part.

mod actions;
mod moods;
mod wrong;

use crate::event::{self, bytes};
use crate::node::{Decision, Node};
use crate::numbers::{Name, BEAT, DEVICES, FIRST, KINDS, SLICE, THREADS};
use crate::random::Random;
use crate::rings::waits_in_ring;
use crate::thread::Manager;
use actions::{can_decide, is_active, Action};
use moods::{Mood, MOODS, TOWARDS_HALT, TOWARDS_PANIC};

/// What the bytes of the run are for.
#[derive(Clone, Copy, Debug, PartialEq, Eq)]
pub enum Form {
    /// One stream: every event is one whole field (the last may be cut off).
    Stream,
    /// Single events, each shorter than 40 bytes and never empty: they may
    /// be cut, or have bytes behind the field.
    Single,
}

/// How a run ends.
#[derive(Clone, Copy, Debug, PartialEq, Eq)]
enum Fate {
    Lives,
    Halts,
    Panics,
}

pub struct Generator {
    random: Random,
    node: Node,
    form: Form,
    /// How likely each mood is in this run.
    moods: Vec<(u64, Mood)>,
    mood: Mood,
    mood_left: u64,
    /// How long moods last.
    pace: u64,
    slowest: u64,
    /// How soon an idle node is woken, in percent.
    hurry: u64,
    /// Ticks still to come one after the other.
    ticks_left: u64,
    fate: Fate,
    /// From this event on the node may stop.
    may_stop_at: u64,
    done: u64,
    count: u64,
}

impl Generator {
    pub fn new(seed: u64, count: u64, form: Form) -> Generator {
        let mut random = Random::new(seed);
        let fate = random.weighted(&[(1, Fate::Lives), (1, Fate::Halts), (1, Fate::Panics)]);
        let may_stop_at = place_of_end(&mut random, count);
        let moods = moods_of_run(&mut random);
        Generator {
            random,
            node: Node::start(),
            form,
            moods,
            mood: Mood::Grow,
            mood_left: 2,
            pace: 6,
            slowest: (count / 2).clamp(2, 120),
            hurry: 40,
            ticks_left: 0,
            fate,
            may_stop_at,
            done: 0,
            count,
        }
    }

    /// A run from this node on that does not stop. Time goes on in it, and threads ask about it.
    pub fn counting(node: Node, seed: u64, count: u64) -> Generator {
        let moods = vec![(4, Mood::Count), (1, Mood::Clock), (1, Mood::Mixed)];
        Generator { node, moods, mood: Mood::Count, fate: Fate::Lives, ..Generator::new(seed, count, Form::Single) }
    }

    pub fn node(&self) -> &Node {
        &self.node
    }

    /// The next event and the decision on it; `None` after the last.
    pub fn next_event(&mut self) -> Option<(Vec<u8>, Decision)> {
        if self.done == self.count {
            return None;
        }
        self.done += 1;
        self.change_mood();
        let mut event = self.safe_event();
        if self.form == Form::Stream && self.done == self.count && self.random.one_in(4) {
            event = self.cut_off(event);
        }
        let decision = self.node.step(&event);
        Some((event, decision))
    }

    fn change_mood(&mut self) {
        if self.is_stuck() && self.random.one_in(15) {
            self.mood = self.random.weighted(&[(2, Mood::Rescue), (3, Mood::Judge)]);
            self.mood_left = 12;
        }
        if self.is_full() {
            self.mood_left = self.mood_left.min(6);
        }
        if self.mood_left > 0 {
            self.mood_left -= 1;
            return;
        }
        self.mood = self.random.weighted(&self.moods);
        self.pace = 6 + self.random.below(self.slowest);
        self.hurry =
            self.random.choose(if self.mood == Mood::Idle { &[1, 4, 10] } else { &[40] }).unwrap_or(40);
        let longest = match self.mood {
            Mood::Churn => self.pace * 2,
            Mood::End | Mood::Wrong => self.pace / 3,
            _ => self.pace,
        };
        self.mood_left = 2 + self.random.below(longest + 1);
        if self.mood == Mood::Churn && self.count > LONG && self.random.one_in(6) {
            self.mood_left = ONCE_ROUND;
        }
    }

    /// Hardly anybody of many threads can act.
    fn is_stuck(&self) -> bool {
        let active = self.names(is_active).len();
        active <= 2 && self.node.threads().len() >= 6
    }

    /// The mood has reached what it is after.
    fn is_full(&self) -> bool {
        match self.mood {
            Mood::Grow => self.node.threads().len() == THREADS,
            Mood::Flood => self.node.blocks().free() == 0,
            Mood::Hold => self.node.held().len() == usize::from(DEVICES),
            Mood::Trap | Mood::Ring | Mood::Listen => self.names(is_active).len() <= 1,
            Mood::Judge => self.names(can_decide).is_empty(),
            _ => false,
        }
    }

    /// An event that does not stop the node before its time.
    fn safe_event(&mut self) -> Vec<u8> {
        for _ in 0..20 {
            let event = self.propose();
            if self.may_stop() || !self.would_spoil(&event) {
                return event;
            }
        }
        bytes::tick()
    }

    fn may_stop(&self) -> bool {
        self.fate != Fate::Lives && self.done >= self.may_stop_at
    }

    /// Would the event stop the node, or leave thread 0 in a ring of waits?
    /// Only short runs may have such rings early.
    fn would_spoil(&self, event: &[u8]) -> bool {
        let mut node = self.node.clone();
        node.step(event);
        node.status().is_stopped() || (self.count > SHORT && waits_in_ring(&node, FIRST))
    }

    fn propose(&mut self) -> Vec<u8> {
        if self.ticks_left > 0 {
            self.ticks_left -= 1;
            return bytes::tick();
        }
        if self.random.one_in(60) {
            return self.malformed();
        }
        if self.node.status().is_stopped() {
            return self.any_event();
        }
        match self.node.runner() {
            None => self.while_idle(),
            Some(runner) => self.act(runner),
        }
    }

    fn choose_action(&mut self) -> Action {
        if self.may_stop() && self.random.percent(60) {
            return self.towards_the_end();
        }
        self.random.weighted(moods::actions(self.mood))
    }

    fn towards_the_end(&mut self) -> Action {
        match self.fate {
            Fate::Panics => self.random.weighted(&TOWARDS_PANIC),
            _ => self.random.weighted(&TOWARDS_HALT),
        }
    }

    /// Nobody runs: time and devices, and some events that need a runner.
    fn while_idle(&mut self) -> Vec<u8> {
        if self.random.one_in(12) {
            return self.any_event();
        }
        let waited = self.waited_devices();
        match self.random.choose(&waited) {
            Some(device) if self.random.percent(self.hurry) => self.interrupt_of(device),
            _ if self.random.percent(self.hurry / 3) => self.interrupt(),
            _ => bytes::tick(),
        }
    }

    /// The first action that the node's state allows.
    fn act(&mut self, runner: Name) -> Vec<u8> {
        for _ in 0..5 {
            let action = self.choose_action();
            if let Some(event) = self.try_action(action, runner) {
                return event;
            }
        }
        bytes::tick()
    }

    // ---- events with more to them ----

    /// Ticks on to the beat, when the slice would end on the same tick.
    fn tick_to_beat(&mut self) -> Vec<u8> {
        let to_beat = BEAT - self.node.ticks_since_beat();
        if to_beat % SLICE == self.node.slice() % SLICE {
            self.ticks_left = u64::from(to_beat) - 1;
        }
        bytes::tick()
    }

    fn interrupt(&mut self) -> Vec<u8> {
        let waited = self.waited_devices();
        let held: Vec<u8> = self.node.held().keys().copied().collect();
        let chosen = match self.random.below(4) {
            0 => self.random.choose(&waited),
            1 => self.random.choose(&held),
            _ => None,
        };
        let device = match chosen {
            Some(device) => device,
            None => self.device(),
        };
        self.interrupt_of(device)
    }

    /// The device is the one to be picked; others may be pending too, behind it in the order.
    fn interrupt_of(&mut self, device: u8) -> Vec<u8> {
        let mut pending = 1u64 << device;
        if self.random.one_in(3) {
            let behind = event::pick_order().skip_while(|&other| other != device).fold(0, |word, other| word | 1u64 << other);
            pending |= self.random.bits() & self.random.bits() & behind;
        }
        bytes::interrupt(pending, self.word())
    }

    // ---- what the events are made of ----

    /// Few words are common, so that they are decisions and repeat.
    fn word(&mut self) -> u32 {
        match self.random.below(8) {
            0 | 1 => 0,
            2 => 1,
            3 => 2,
            4 => u32::MAX - self.random.below(2) as u32,
            5 => self.random.below(256) as u32,
            _ => self.random.bits() as u32,
        }
    }

    fn kind(&mut self) -> u8 {
        self.random.below(KINDS.into()) as u8
    }

    /// Few devices are common, so that waiters and words meet.
    fn device(&mut self) -> u8 {
        match self.random.below(4) {
            0 => self.random.below(DEVICES.into()) as u8,
            1 => self.random.choose(&[0, 1, 31, 32, 33, 46, 47]).unwrap_or(0),
            _ => self.random.below(4) as u8,
        }
    }

    fn names(&self, wanted: impl Fn(&Node, Name) -> bool) -> Vec<Name> {
        self.node.threads().keys().copied().filter(|&name| wanted(&self.node, name)).collect()
    }

    fn any_live(&mut self) -> Name {
        let live = self.names(|_, _| true);
        self.random.choose(&live).unwrap_or(FIRST)
    }

    fn other(&mut self, runner: Name) -> Option<Name> {
        let others = self.names(|_, name| name != runner);
        self.random.choose(&others)
    }

    /// The live name behind this one, going round.
    fn next_live(&self, name: Name) -> Option<Name> {
        let others = self.names(|_, other| other != name);
        others.iter().copied().find(|&other| other > name).or(others.first().copied())
    }

    fn kind_with(&mut self, name: Name, wanted: impl Fn(Manager) -> bool) -> Option<u8> {
        let thread = self.node.thread(name)?;
        let kinds: Vec<u8> = (0..KINDS).filter(|&kind| wanted(thread.manager(kind))).collect();
        self.random.choose(&kinds)
    }

    fn waited_devices(&self) -> Vec<u8> {
        (0..DEVICES).filter(|&device| self.node.device_waiter(device).is_some()).collect()
    }
}

/// Runs up to this length may stop anywhere.
const SHORT: u64 = 200;

/// Runs over this length have time for all names to be given.
const LONG: u64 = 2_000;

/// About as many events as it takes to give each name once, when every other event ends a thread again.
const ONCE_ROUND: u64 = 600;

/// Runs differ in what they are mostly about: some moods never come, some come often. Threads are made in all.
fn moods_of_run(random: &mut Random) -> Vec<(u64, Mood)> {
    let factor = |mood, random: &mut Random| match mood {
        Mood::Grow => 1,
        _ => random.choose(&[0, 1, 1, 1, 4]).unwrap_or(1),
    };
    MOODS.iter().map(|&(weight, mood)| (weight * factor(mood, random), mood)).collect()
}

fn place_of_end(random: &mut Random, count: u64) -> u64 {
    if count <= SHORT {
        let part = if random.one_in(4) { count } else { count / 4 };
        count - random.below(part + 1)
    } else {
        count - count.min(20 + random.below(80))
    }
}
