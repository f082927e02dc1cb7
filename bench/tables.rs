//! The tables that checks and dumps are timed on, each with the events that lead there: typical ones, and the fullest.

use crate::timing::fields;
use plain::lent::Tables;
use plain::Plain;

pub struct Filled {
    pub name: String,
    /// From a start.
    pub events: Vec<u8>,
    pub tables: Tables,
}

impl Filled {
    fn new(name: String, events: Vec<u8>) -> Filled {
        let mut plain = Plain::start();
        fields(&events).for_each(|field| _ = plain.step(field));
        Filled { name, events, tables: Tables::of(&plain) }
    }

    /// How full the tables are.
    pub fn fill(&self) -> String {
        let Tables { threads, messages, held, .. } = &self.tables;
        let in_state = |state: u8| threads.row[..threads.n].iter().filter(|thread| thread.state == state).count();
        let [ready, receiving, clock, device, trapped] = [1, 2, 3, 4, 5].map(in_state);
        let notices = messages.row[..messages.n].iter().filter(|message| message.kind == 2).count();
        let waits = format!("{ready:>5} {receiving:>9} {clock:>5} {device:>6} {trapped:>7}");
        format!("{:<12} {:>7} {waits} {:>8} {notices:>7} {:>4}", self.name, threads.n, messages.n, held.n)
    }
}

pub fn fill_head() -> String {
    let waits = "ready receiving clock device trapped";
    format!("{:<12} {:>7} {waits} {:>8} {:>7} {:>4}", "tables", "threads", "messages", "notices", "held")
}

/// After the first 1,000 events of each file.
pub fn typical(files: &[(String, Vec<u8>)]) -> Vec<Filled> {
    let cut = |(name, bytes): &(String, Vec<u8>)| {
        let part: usize = fields(bytes).take(1000).map(<[u8]>::len).sum();
        let name = name.rsplit('/').next().unwrap_or(name).trim_end_matches(".events");
        Filled::new(name.to_string(), bytes[..part].to_vec())
    };
    files.iter().map(cut).collect()
}

/// 20 threads in one line of parents and 20 ordinary messages, with every device held or waited for.
pub fn fullest() -> Vec<Filled> {
    let kinds: [(&str, fn(&mut Script)); 4] =
        [("all ready", all_ready), ("receiving", receiving), ("clock+device", waiting), ("all trapped", trapped)];
    let made = |(name, fill): (&str, fn(&mut Script))| {
        let mut script = Script { plain: Plain::start(), runner: 0, events: Vec::new() };
        script.make_line();
        fill(&mut script);
        Filled::new(name.to_string(), script.events)
    };
    kinds.map(made).into()
}

fn all_ready(script: &mut Script) {
    script.send_to_all();
    script.hold(0);
}

/// Each from the next one, 1 to 19 in a ring, and each with a message of another sender.
fn receiving(script: &mut Script) {
    for name in 1..20 {
        script.until_runs(name);
        script.event(&[17, 0, 1, name % 19 + 1]);
    }
    script.send_to_all();
    script.hold(0);
}

/// Nine for a device, then ten for the clock: whoever runs then waits, so that no tick is needed, and no beat wakes them.
fn waiting(script: &mut Script) {
    script.send_to_all();
    for name in 1..10 {
        script.until_runs(name);
        script.event(&[18, 0, 2, 9, name - 1]);
    }
    script.hold(9);
    (0..10).for_each(|_| script.event(&[18, 0, 2, 8, 0]));
}

/// In a ring of managers, and no notice is read: the longest dump.
fn trapped(script: &mut Script) {
    script.send_to_all();
    script.hold(0);
    for name in 0..20 {
        script.until_runs(name);
        script.event(&[18, 0, 2, 4, (name + 1) % 20]);
    }
    for name in 0..20 {
        script.until_runs(name);
        script.event(&[19, 0, 5, 0, 0, 0, 0, name]);
    }
}

/// Events that are all accepted, and who runs after them.
struct Script {
    plain: Plain,
    runner: u8,
    events: Vec<u8>,
}

impl Script {
    fn event(&mut self, field: &[u8]) {
        let decision = self.plain.step(field);
        assert_eq!(decision.refusal, 0, "{field:?}");
        self.runner = decision.runner;
        self.events.extend(field);
    }

    fn until_runs(&mut self, name: u8) {
        while self.runner != name {
            self.event(&[20, 0, 0]);
        }
    }

    /// Each thread but the last makes a son.
    fn make_line(&mut self) {
        for name in 0..19 {
            self.until_runs(name);
            self.event(&[18, 0, 2, 2, 0]);
        }
    }

    /// One message to each, the sender too.
    fn send_to_all(&mut self) {
        self.until_runs(0);
        (0..20).for_each(|name| self.event(&[16, 0, 5, name, 0, 0, 0, name]));
    }

    /// A word for each device from this one on.
    fn hold(&mut self, least: u8) {
        for device in least..48 {
            let [a, b, c, d, e, f, g, h] = (1u64 << device).to_be_bytes();
            self.event(&[21, 0, 12, a, b, c, d, e, f, g, h, 0, 0, 1, device]);
        }
    }
}
