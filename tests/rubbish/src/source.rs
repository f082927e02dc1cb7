//! Tables that meet the table rules: from long runs, built at random, and the fullest there are.

use crate::events::{self, Known};
use nucleus::event::bytes;
use nucleus::random::Random;
use nucleus::valid::Dumps;
use nucleus::{dump, Node, Tables};

pub struct Source {
    dumps: Dumps,
    /// The fullest, and a node that halted and one that panicked.
    ends: Vec<Node>,
}

impl Source {
    pub fn new(seed: u64) -> Source {
        let ends = vec![trapped(1), waiting(), trapped(0), ready(), receiving(), halted(), panicked()];
        Source { dumps: Dumps::new(seed), ends }
    }

    /// One in eight is an end, or a few events behind it.
    pub fn tables(&mut self) -> Tables {
        let random = self.dumps.random();
        if random.one_in(8) {
            let place = random.below(self.ends.len() as u64) as usize;
            let mut node = self.ends[place].clone();
            for _ in 0..random.below(4) {
                node.step(&events::good(&Known::of(&node.tables()), random));
            }
            return node.tables();
        }
        self.dump()
    }

    /// Tables for a whole row of trials: the ends in turn, each with others behind it.
    pub fn telling_tables(&mut self, number: u64) -> Tables {
        match usize::try_from(number / 2).ok().and_then(|place| self.ends.get(place)) {
            Some(node) if number % 2 == 0 => node.tables(),
            _ => self.busy_tables(),
        }
    }

    /// With something in every row.
    fn busy_tables(&mut self) -> Tables {
        loop {
            let t = self.dump();
            let rows = [t.threads.len(), t.ready.len(), t.clock.len(), t.messages.len(), t.held.len()];
            if rows.iter().all(|&length| length > 1) {
                return t;
            }
        }
    }

    fn dump(&mut self) -> Tables {
        dump::read(&self.dumps.next_dump()).expect("a dump can be read")
    }

    pub fn random(&mut self) -> &mut Random {
        self.dumps.random()
    }
}

// The fullest have 20 threads in one line of parents and 20 ordinary messages, with every device held or waited for.

fn ready() -> Node {
    let mut script = Script::full();
    script.hold(0);
    script.node
}

/// Those from this one on, in a ring of managers, and no notice is read. All of them are 40 messages and the longest dump.
fn trapped(first: u8) -> Node {
    let mut script = Script::full();
    script.hold(0);
    for name in 0..20 {
        script.as_thread(name, bytes::request(4, (name + 1) % 20));
    }
    for name in first..20 {
        script.as_thread(name, bytes::trap(0, name.into()));
    }
    script.node
}

/// 1 to 19 in a ring, each from the next one.
fn receiving() -> Node {
    let mut script = Script::full();
    for name in 1..20 {
        script.as_thread(name, bytes::receive(name % 19 + 1));
    }
    script.hold(0);
    script.node
}

/// Nine for a device, then ten for the clock. Those who run then wait at once, so that no beat wakes one.
fn waiting() -> Node {
    let mut script = Script::full();
    for name in 1..10 {
        script.as_thread(name, bytes::request(9, name - 1));
    }
    script.hold(9);
    (0..10).for_each(|_| script.event(&bytes::request(8, 0)));
    script.node
}

fn halted() -> Node {
    let mut script = Script::full();
    script.hold(0);
    script.as_thread(0, bytes::request(3, 255));
    script.node
}

/// All receive from anybody, but one that is trapped on 0.
fn panicked() -> Node {
    let mut script = Script::line();
    script.as_thread(7, bytes::request(5, 0));
    script.as_thread(7, bytes::trap(1, 9));
    script.as_thread(0, bytes::receive(255));
    (0..19).for_each(|_| script.event(&bytes::receive(255)));
    script.node
}

/// A node on which every event is accepted.
struct Script {
    node: Node,
}

impl Script {
    /// Each thread but the last makes a son.
    fn line() -> Script {
        let mut script = Script { node: Node::start() };
        (0..19).for_each(|name| script.as_thread(name, bytes::request(2, 0)));
        script
    }

    /// One message to each, the sender too.
    fn full() -> Script {
        let mut script = Script::line();
        (0..20).for_each(|name| script.as_thread(0, bytes::send(name, name.into())));
        script
    }

    fn event(&mut self, event: &[u8]) {
        assert_eq!(self.node.step(event).refusal, 0, "{event:?}");
    }

    /// Ticks until this thread runs, then its event.
    fn as_thread(&mut self, name: u8, event: Vec<u8>) {
        while self.node.runner() != Some(name) {
            self.event(&bytes::tick());
        }
        self.event(&event);
    }

    /// A word for each device from this one on.
    fn hold(&mut self, least: u8) {
        (least..48).for_each(|device| self.event(&bytes::interrupt(1 << device, device.into())));
    }
}
