//! What the generated runs reach, and that the node keeps its rules in them.

use nucleus::census::{Census, STATES};
use nucleus::generator::{Form, Generator};
use nucleus::{load, program, Node};
use std::collections::BTreeMap;

/// Every rule that a reached node has to keep.
fn check(node: &Node) {
    let tables = node.tables();
    assert_eq!(tables.broken_rules(), []);
    let in_inboxes: u64 = node.threads().values().map(|t| t.ordinary_messages()).sum();
    assert_eq!(node.blocks().in_use(), in_inboxes);
    let dump = node.dump();
    assert!(dump.len() <= nucleus::dump::SUFFICIENT);
    let loaded = load(&dump).expect("a dump");
    assert_eq!(loaded.tables(), tables);
    assert_eq!(loaded.dump(), dump);
}

fn run(seed: u64, count: u64, form: Form, census: &mut Census) {
    let mut generator = Generator::new(seed, count, form);
    census.start_run();
    loop {
        let before = generator.node().clone();
        let Some((bytes, decision)) = generator.next_event() else { break };
        let after = generator.node();
        census.note(&before, &bytes, &decision, after);
        if decision.refusal == 0 {
            check(after);
        } else {
            assert_eq!(&before, after, "a refusal changes nothing");
            assert_eq!((decision.kind, decision.sender, decision.word), (0, 255, 0));
        }
        assert_eq!(decision.status, after.status().number());
        assert_eq!(decision.runner, after.runner().unwrap_or(255));
    }
}

fn print(census: &Census) {
    for what in STATES {
        println!("{:7} {what}", census.times(what));
    }
    println!("refusals {:?}", census.refusals);
}

#[test]
fn long_runs_reach_the_deep_states() {
    let mut census = Census::default();
    for seed in 1..=40 {
        run(seed, 5_000, Form::Stream, &mut census);
    }
    print(&census);
    for what in STATES {
        assert!(census.times(what) > 0, "never: {what}");
    }
    assert!(census.refusals.iter().all(|&times| times > 100), "{:?}", census.refusals);
}

/// The node stops in the last part of a long run and not before.
#[test]
fn long_runs_live_long() {
    for seed in 1..=40 {
        let mut generator = Generator::new(seed, 3_000, Form::Stream);
        for _ in 0..2_900 {
            generator.next_event();
        }
        assert!(!generator.node().status().is_stopped(), "seed {seed}");
    }
}

#[test]
fn short_runs_reach_every_ending_and_refusal() {
    let mut census = Census::default();
    let mut endings = BTreeMap::new();
    for seed in 0..600 {
        run(seed, 80, Form::Single, &mut census);
        let mut stream = Vec::new();
        let mut generator = Generator::new(seed, 60, Form::Stream);
        while let Some((event, _)) = generator.next_event() {
            stream.extend(event);
        }
        let mut lines = Vec::new();
        let node = program::run(&stream[..], &mut lines).unwrap();
        assert_eq!(lines.iter().filter(|&&byte| byte == b'\n').count(), 61);
        assert_eq!(&node, generator.node());
        *endings.entry(program::last_line(node.status())).or_insert(0) += 1;
    }
    print(&census);
    println!("{endings:?}");
    assert!(census.refusals.iter().all(|&times| times > 0), "{:?}", census.refusals);
    assert!(endings.len() == 3 && endings.values().all(|&times| times > 20), "{endings:?}");
}

#[test]
fn single_events_are_short_and_the_same_again() {
    for seed in 0..50 {
        let mut one = Generator::new(seed, 300, Form::Single);
        let mut two = Generator::new(seed, 300, Form::Single);
        while let Some((event, decision)) = one.next_event() {
            assert!(!event.is_empty() && event.len() < 40);
            assert_eq!(two.next_event(), Some((event, decision)));
        }
        assert_eq!(two.next_event(), None);
    }
}
