//! Dumps: round trips, damage, the table rules one by one, lent tables.

mod common;
use common::*;
use nucleus::event::first_field;
use nucleus::generator::{Form, Generator};
use nucleus::random::Random;
use nucleus::tables::{RawHeld, RawMessage, RawThread};
use nucleus::{dump, lent, load, Node, Rule, Tables};

fn reached(seed: u64, count: u64) -> Node {
    let mut generator = Generator::new(seed, count, Form::Stream);
    while generator.next_event().is_some() {}
    generator.node().clone()
}

#[test]
fn generated_runs_come_back() {
    for seed in 0..200 {
        let node = reached(seed, 30 + seed * 5);
        let bytes = node.dump();
        let loaded = load(&bytes).unwrap();
        assert_eq!(loaded.tables(), node.tables());
        assert_eq!(loaded.dump(), bytes);
        // The loaded node goes on as the first one does.
        let (mut one, mut two) = (node, loaded);
        let mut events = Generator::new(seed + 1000, 60, Form::Single);
        while let Some((event, _)) = events.next_event() {
            assert_eq!(one.step(&event), two.step(&event));
            assert_eq!(one.dump(), two.dump());
        }
    }
}

/// Tables that no run may reach keep the rules too.
fn keeps_its_rules(mut node: Node, seed: u64) {
    let mut events = Generator::new(seed, 120, Form::Single);
    while let Some((event, _)) = events.next_event() {
        node.step(&event);
        assert_eq!(node.tables().broken_rules(), []);
    }
}

/// Where field 4 or a later one ends: what is before is a dump too.
fn ends_that_may_be_cut_at(bytes: &[u8]) -> Vec<usize> {
    let mut ends = Vec::new();
    let mut rest = bytes;
    while let Some((tag, _, behind)) = first_field(rest) {
        rest = behind;
        if tag >= dump::CLOCK {
            ends.push(bytes.len() - rest.len());
        }
    }
    ends
}

/// Changed bytes are refused, or are the dump of other tables.
#[test]
fn damaged_dumps() {
    let mut random = Random::new(7);
    let (mut refused, mut read) = (0, 0);
    for seed in 0..150 {
        let bytes = reached(seed, 400).dump();
        let ends = ends_that_may_be_cut_at(&bytes);
        for length in 0..bytes.len() {
            assert_eq!(load(&bytes[..length]).is_ok(), ends.contains(&length), "cut at {length}");
        }
        let mut longer = bytes.clone();
        longer.push(0);
        assert!(load(&longer).is_err());
        longer.extend([0, 0]);
        assert!(load(&longer).is_err());
        for _ in 0..200 {
            let mut damaged = bytes.clone();
            let place = random.below(bytes.len() as u64) as usize;
            damaged[place] = damaged[place].wrapping_add(1 + random.below(255) as u8);
            match load(&damaged) {
                Ok(node) => {
                    read += 1;
                    assert_eq!(node.dump(), damaged);
                    assert!(node.tables().meets_rules());
                    if read % 10 == 0 {
                        keeps_its_rules(node, seed);
                    }
                }
                Err(_) => refused += 1,
            }
        }
    }
    assert!(refused > 10_000 && read > 1_000, "{refused} {read}");
}

#[test]
fn order_and_number_of_fields() {
    let head = "010009 00 02 00 05 00 00000000";
    let zero = "020011 00 FF 00 00 FFFFFF 00000000 00 FF 00000000";
    let one = "020011 01 00 01 00 FFFFFF 00000000 00 FF 00000000";
    let two = "020011 02 00 03 00 FFFFFF 00000000 00 FF 00000000";
    let (ready, clock) = ("030001 01", "040001 02");
    let to_zero = "050007 00 01 01 00000007";
    let to_two = "050007 02 01 01 00000007";
    let (held3, held4) = ("060005 03 00000000", "060005 04 00000000");
    let good = [head, zero, one, two, ready, clock, to_zero, to_two, held3, held4];
    let is_dump = |fields: &[&str]| load(&hex(&fields.concat())).is_ok();
    assert!(is_dump(&good));
    for place in 0..good.len() {
        let mut twice = good.to_vec();
        twice.insert(place, good[place]);
        let repeatable = good[place].starts_with("05");
        assert_eq!(is_dump(&twice), repeatable, "twice {place}");
        if place > 0 {
            let mut swapped = good.to_vec();
            swapped.swap(place - 1, place);
            assert!(!is_dump(&swapped), "swapped {place}");
        }
    }
    for needed in [head, ready, clock, zero] {
        let left: Vec<&str> = good.iter().copied().filter(|&field| field != needed).collect();
        assert!(!is_dump(&left));
    }
    assert!(is_dump(&[head, zero, one, two, ready, clock]));
    assert!(!is_dump(&[head, zero, one, two, ready, clock, "050000"]));
    assert!(!is_dump(&[head, zero, one, two, ready, clock, "060000"]));
    assert!(!is_dump(&["080002 40 80", head, zero, one, two, ready, clock]));
}

fn thread(name: u8, parent: u8, state: u8, detail: u8) -> RawThread {
    RawThread {
        name,
        parent,
        state,
        detail,
        managers: [255; 3],
        count: 0,
        answer_kind: 0,
        answer_sender: 255,
        answer_word: 0,
    }
}

fn message(receiver: u8, sender: u8, kind: u8) -> RawMessage {
    RawMessage { receiver, sender, kind, word: 9 }
}

/// 0 runs; 1 ready with an answer; 2 receives from 1; 3 clock; 4 device 7;
/// 5 trapped on 0, notice unread; 6 receives from anybody.
fn sample() -> Tables {
    let mut threads = vec![
        thread(0, 255, 0, 0),
        thread(1, 0, 1, 0),
        thread(2, 1, 2, 1),
        thread(3, 2, 3, 0),
        thread(4, 0, 4, 7),
        thread(5, 4, 5, 2),
        thread(6, 0, 2, 255),
    ];
    threads[5].managers = [254, 3, 0];
    (threads[1].answer_kind, threads[1].answer_sender) = (1, 200);
    Tables {
        status: 0,
        name_given_last: 6,
        runner: 0,
        slice: 3,
        ticks_since_beat: 4,
        beats: 8,
        threads,
        ready: vec![1],
        clock: vec![3],
        messages: vec![message(0, 5, 2), message(0, 1, 1), message(2, 2, 1), message(5, 0, 1)],
        held: vec![RawHeld { device: 8, word: 1 }],
    }
}

/// The change breaks exactly these rules.
fn breaks(change: impl Fn(&mut Tables), rules: &[Rule]) {
    let mut tables = sample();
    change(&mut tables);
    assert_eq!(tables.broken_rules(), rules, "{tables:?}");
    assert!(Node::from_tables(&tables).is_none());
    assert!(load(&dump::write(&tables)).is_err());
    // Lent tables like these are refused 11 and stay as they are.
    let before = tables.clone();
    assert_eq!(numbers(lent::step(&mut tables, &tick())), (11, 255, 255, 0, 255, 0));
    assert_eq!(tables, before);
    let mut buffer = [7; 2000];
    assert_eq!(lent::dump(&tables, &mut buffer), (11, 0));
    assert_eq!(buffer, [7; 2000]);
}

fn keeps(change: impl Fn(&mut Tables)) {
    let mut tables = sample();
    change(&mut tables);
    assert_eq!(tables.broken_rules(), []);
    let bytes = dump::write(&tables);
    assert_eq!(load(&bytes).unwrap().dump(), bytes);
}

#[test]
fn each_rule_can_be_broken() {
    use Rule::*;
    keeps(|_| ());
    // Ranges.
    breaks(|t| t.status = 4, &[Ranges, Status]);
    breaks(|t| t.name_given_last = 254, &[Ranges]);
    breaks(|t| t.runner = 254, &[Ranges, Queues]);
    breaks(|t| t.slice = 6, &[Ranges, Slice]);
    breaks(|t| t.ticks_since_beat = 20, &[Ranges]);
    breaks(|t| t.threads[1].detail = 1, &[Ranges]);
    breaks(|t| t.threads[2].detail = 254, &[Ranges, NamesWantedAndSet]);
    breaks(|t| t.threads[4].detail = 48, &[Ranges]);
    breaks(|t| t.threads[5].detail = 3, &[Ranges, TrappedManager, Notices]);
    breaks(|t| t.threads[6].state = 6, &[Ranges]);
    breaks(|t| t.messages[1].kind = 0, &[Ranges]);
    breaks(|t| t.messages[1].kind = 3, &[Ranges]);
    breaks(|t| t.held[0].device = 48, &[Ranges]);
    breaks(|t| t.threads[4].parent = 254, &[Ranges, Parents]);
    // Names and parents.
    breaks(|t| t.threads.push(thread(6, 0, 2, 255)), &[LiveNames]);
    breaks(
        |t| {
            for name in 7..=20 {
                t.threads.push(thread(name, 0, 2, 255));
            }
        },
        &[LiveNames],
    );
    breaks(|t| t.threads[4].parent = 99, &[Parents]);
    breaks(|t| t.threads[4].parent = 4, &[Parents]);
    breaks(|t| t.threads[1].parent = 3, &[Parents]);
    breaks(|t| t.threads[4].parent = 255, &[Parents]);
    breaks(|t| t.threads[0].parent = 1, &[Parents]);
    // Queues.
    breaks(|t| t.ready.clear(), &[Queues]);
    breaks(|t| t.ready.push(1), &[Queues]);
    breaks(|t| t.ready.push(3), &[Queues]);
    breaks(|t| t.clock.push(1), &[Queues]);
    breaks(|t| t.clock.push(77), &[Queues]);
    breaks(|t| t.clock.clear(), &[Queues]);
    breaks(|t| t.runner = 1, &[Queues]);
    breaks(|t| t.threads[6].state = 0, &[Ranges, Queues]);
    // Devices.
    breaks(|t| t.held[0].device = 7, &[Devices]);
    breaks(|t| t.held.push(RawHeld { device: 8, word: 1 }), &[Devices]);
    breaks(|t| (t.threads[6].state, t.threads[6].detail) = (4, 7), &[Devices]);
    // Names wanted and set.
    breaks(|t| t.threads[2].detail = 9, &[NamesWantedAndSet]);
    breaks(|t| t.threads[2].managers[0] = 9, &[NamesWantedAndSet]);
    breaks(|t| t.threads[2].managers[0] = 2, &[NamesWantedAndSet]);
    // Trapped threads and notices.
    breaks(|t| t.threads[5].managers[2] = 254, &[TrappedManager, Notices]);
    breaks(|t| t.threads[5].managers[2] = 255, &[TrappedManager, Notices]);
    breaks(|t| t.threads[5].managers[2] = 9, &[NamesWantedAndSet, TrappedManager, Notices]);
    breaks(|t| t.threads[5].managers[2] = 5, &[NamesWantedAndSet, Notices]);
    breaks(|t| t.messages[0].sender = 1, &[Notices]);
    breaks(|t| t.messages[0].receiver = 3, &[Notices]);
    breaks(|t| t.messages.push(message(0, 5, 2)), &[Notices]);
    // Messages.
    breaks(|t| t.messages[2].sender = 1, &[NoMatchInInbox]);
    breaks(|t| t.messages[3].receiver = 6, &[NoMatchInInbox]);
    breaks(|t| t.messages[3].receiver = 50, &[MessageNames]);
    breaks(|t| t.messages[3].sender = 50, &[MessageNames]);
    breaks(|t| t.messages.extend([message(5, 0, 1); 18]), &[MessageCount]);
    // Status, ready, slice.
    breaks(|t| t.status = 1, &[Status]);
    breaks(|t| t.slice = 0, &[Slice]);
    breaks(
        |t| {
            t.runner = 255;
            t.threads[0].state = 3;
            t.clock.push(0);
            (t.status, t.slice) = (1, 0);
        },
        &[ReadyNeedsRunner],
    );
    // Answers.
    breaks(|t| t.threads[1].answer_sender = 254, &[Answers]);
    breaks(|t| t.threads[1].answer_sender = 255, &[Answers]);
    breaks(|t| t.threads[1].answer_kind = 0, &[Answers]);
    breaks(|t| t.threads[1].answer_kind = 4, &[Answers]);
    breaks(|t| t.threads[1].answer_kind = 5, &[Ranges, Answers]);
    breaks(|t| (t.threads[1].answer_kind, t.threads[1].answer_word) = (3, 1), &[Answers]);
    breaks(|t| t.threads[2].answer_word = 1, &[Answers]);
    for place in [0, 2, 3, 4, 5] {
        breaks(|t| (t.threads[place].answer_kind, t.threads[place].answer_sender) = (4, 254), &[Answers]);
    }
}

#[test]
fn what_the_rules_leave_free() {
    // Answers: a sender that is not live, or oneself; a notice of one not trapped.
    for kind in 1..=3 {
        keeps(|t| t.threads[1].answer_kind = kind);
        keeps(|t| (t.threads[1].answer_kind, t.threads[1].answer_sender) = (kind, 1));
    }
    keeps(|t| {
        (t.threads[1].answer_kind, t.threads[1].answer_sender, t.threads[1].answer_word) = (4, 254, 77)
    });
    keeps(|t| (t.threads[1].answer_kind, t.threads[1].answer_sender) = (0, 255));
    // A notice that was read; a wanted own name; numbers that nothing ties.
    keeps(|t| t.messages.retain(|m| m.kind == 1));
    keeps(|t| {
        t.threads[2].detail = 2;
        t.messages.remove(2);
    });
    keeps(|t| (t.name_given_last, t.ticks_since_beat, t.beats) = (253, 19, u32::MAX));
    keeps(|t| t.threads[6].managers = [5, 254, 255]);
    keeps(|t| t.messages.splice(3..3, [message(4, 0, 1); 17]).for_each(drop));
    // Halted tables keep their held words.
    keeps(|t| {
        t.threads.clear();
        (t.ready, t.clock, t.messages) = (vec![], vec![], vec![]);
        (t.status, t.runner, t.slice) = (2, 255, 0);
    });
    // Panicked and idle tables.
    for (state, status) in [(2, 3), (4, 1)] {
        keeps(|t| {
            t.threads = vec![thread(0, 255, state, 0)];
            (t.ready, t.clock, t.messages) = (vec![], vec![], vec![]);
            (t.status, t.runner, t.slice) = (status, 255, 0);
        });
    }
}

#[test]
fn rules_look_at_tables_not_at_their_order() {
    let mut tables = sample();
    tables.threads.reverse();
    tables.messages.rotate_left(1);
    assert!(tables.meets_rules());
    let bytes = dump::write(&tables);
    assert!(load(&bytes).is_err(), "not in the writer's order");
    assert_eq!(Node::from_tables(&tables).unwrap().dump()[12..16], hex("020011 00"));
}

/// The longest dump there is.
#[test]
fn the_longest_dump() {
    let mut threads: Vec<RawThread> = (0..20).map(|name| thread(name, 0, 5, 0)).collect();
    threads[0].parent = 255;
    for thread in &mut threads {
        thread.managers[0] = (thread.name + 1) % 20;
    }
    let mut messages = Vec::new();
    for receiver in 0..20 {
        messages.push(message(receiver, (receiver + 19) % 20, 2));
        messages.push(message(receiver, 3, 1));
    }
    let held = (0..48).map(|device| RawHeld { device, word: 1 }).collect();
    let tables = Tables { status: 3, runner: 255, threads, messages, held, ..Tables::default() };
    assert_eq!(tables.broken_rules(), []);
    let bytes = dump::write(&tables);
    assert_eq!(bytes.len(), 1202);
    assert!(bytes.len() <= dump::SUFFICIENT);
    assert_eq!(load(&bytes).unwrap().dump(), bytes);
}

#[test]
fn lent_tables() {
    let mut tables = Node::start().tables();
    assert_eq!(numbers(lent::step(&mut tables, &request(2, 0))), (0, 0, 0, 4, 254, 1));
    let mut node = Node::start();
    node.step(&request(2, 0));
    assert_eq!(tables, node.tables());
    let bytes = node.dump();
    // The dump fits exactly, or not at all; bytes behind it stay.
    let mut short = vec![7; bytes.len() - 1];
    assert_eq!(lent::dump(&tables, &mut short), (12, 0));
    assert!(short.iter().all(|&byte| byte == 7));
    let mut long = vec![7; bytes.len() + 2];
    assert_eq!(lent::dump(&tables, &mut long), (0, bytes.len()));
    assert_eq!(long[..bytes.len()], bytes);
    assert_eq!(long[bytes.len()..], [7, 7]);
    // A refused load leaves the tables.
    let before = tables.clone();
    assert_eq!(lent::load(&mut tables, &bytes[..bytes.len() - 1]), (15, bytes.len() - 1));
    assert_eq!(tables, before);
    assert_eq!(lent::load(&mut tables, &Node::start().dump()), (0, 0));
    assert_eq!(tables, Node::start().tables());
}

/// A small step over lent tables is the node's step.
#[test]
fn lent_tables_follow_the_node() {
    for seed in 0..20 {
        let mut tables = Node::start().tables();
        let mut generator = Generator::new(seed, 150, Form::Single);
        while let Some((event, decision)) = generator.next_event() {
            assert_eq!(lent::step(&mut tables, &event), decision);
            assert_eq!(tables, generator.node().tables());
        }
    }
}
