//! Small helpers of the tests.
#![allow(dead_code)]

pub use nucleus::event::bytes::*;
use nucleus::{Decision, Node};

pub fn hex(text: &str) -> Vec<u8> {
    let digits: Vec<char> = text.chars().filter(char::is_ascii_hexdigit).collect();
    digits.chunks(2).map(|pair| u8::from_str_radix(&pair.iter().collect::<String>(), 16).unwrap()).collect()
}

/// The decision as the document's six numbers.
pub fn numbers(decision: Decision) -> (u8, u8, u8, u8, u8, u32) {
    let Decision { refusal, status, runner, kind, sender, word } = decision;
    (refusal, status, runner, kind, sender, word)
}

pub fn step(node: &mut Node, event: Vec<u8>) -> (u8, u8, u8, u8, u8, u32) {
    numbers(node.step(&event))
}

/// The event has to be accepted.
pub fn accept(node: &mut Node, event: Vec<u8>) -> (u8, u8, u8, u8, u8, u32) {
    let decision = step(node, event);
    assert_eq!(decision.0, 0, "refused");
    decision
}

/// The event has to be refused with this number and change nothing.
pub fn refuse(node: &mut Node, event: Vec<u8>, number: u8) {
    let before = node.clone();
    let decision = step(node, event);
    let status = before.status().number();
    let runner = before.runner().unwrap_or(255);
    assert_eq!(decision, (number, status, runner, 0, 255, 0));
    assert_eq!(&before, node);
}

pub fn ticks(node: &mut Node, count: u32) {
    for _ in 0..count {
        accept(node, tick());
    }
}

/// Tick until this thread runs.
pub fn let_run(node: &mut Node, name: u8) {
    for _ in 0..200 {
        if node.runner() == Some(name) {
            return;
        }
        accept(node, tick());
    }
    panic!("{name} never runs");
}

/// A start with sons 1 to `count` of thread 0, which runs.
pub fn with_sons(count: u8) -> Node {
    let mut node = Node::start();
    for name in 1..=count {
        assert_eq!(accept(&mut node, request(2, 0)), (0, 0, 0, 4, 254, name.into()));
    }
    node
}
