//! What the comparisons with the independent program share.

#![allow(dead_code)] // each test file uses a part of it

use nucleus::generator::{Form, Generator};
use nucleus::random::Random;
use nucleus::Node;
use plain::lent::{dump_checked, Tables};
use plain::{Decision, Plain};

/// 1,241 bytes always suffice.
pub const BUFFER: usize = 1241;

pub fn same(decision: Decision, expected: nucleus::Decision) -> bool {
    let nucleus::Decision { refusal, status, runner, kind, sender, word } = expected;
    (decision.refusal, decision.status, decision.runner) == (refusal, status, runner)
        && (decision.answer.kind, decision.answer.sender, decision.answer.word) == (kind, sender, word)
}

pub fn dump_of(plain: &Plain) -> Vec<u8> {
    let mut buffer = [0; BUFFER];
    let length = plain.dump(&mut buffer).expect("room");
    buffer[..length].to_vec()
}

/// The dump of lent tables, which must be some.
pub fn dump_of_lent(tables: &Tables) -> Vec<u8> {
    let mut buffer = [0; BUFFER];
    let length = dump_checked(tables, &mut buffer).expect("tables that meet the rules");
    buffer[..length].to_vec()
}

/// Nodes from all over generated runs of 2,000 events.
pub fn nodes(seeds: u64, every: usize) -> Vec<Node> {
    let mut nodes = Vec::new();
    for seed in 0..seeds {
        let mut generator = Generator::new(seed, 2_000, Form::Stream);
        for number in 0.. {
            if number % every == 0 {
                nodes.push(generator.node().clone());
            }
            if generator.next_event().is_none() {
                break;
            }
        }
    }
    nodes
}

/// A number that is likely to matter: near a limit, one that stands there already, or any.
pub fn odd_number(random: &mut Random, there: &[u8]) -> u8 {
    const LIMITS: [u8; 19] = [0, 1, 2, 3, 4, 5, 6, 7, 9, 17, 19, 20, 21, 47, 48, 252, 253, 254, 255];
    match random.below(3) {
        0 => LIMITS[random.below(19) as usize],
        1 => random.choose(there).unwrap_or(0),
        _ => random.byte(),
    }
}
