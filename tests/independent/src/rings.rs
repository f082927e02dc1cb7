//! Rows and rings of threads that wait for each other or are set as managers.

use crate::node::Node;
use crate::numbers::{Name, KINDS, THREADS};
use crate::thread::{Manager, State, Thread, Wanted};
use std::collections::BTreeSet;

/// The thread, the manager it is trapped on, the one that this one is trapped on, and so on, each once.
pub fn traps_behind(node: &Node, name: Name) -> Vec<Name> {
    let mut row = vec![name];
    let mut last = name;
    while let Some(manager) = node.thread(last).and_then(Thread::trapped_on) {
        if row.contains(&manager) {
            break;
        }
        row.push(manager);
        last = manager;
    }
    row
}

pub fn in_ring_of_traps(node: &Node, name: Name) -> bool {
    let manager = node.thread(name).and_then(Thread::trapped_on);
    manager.is_some_and(|manager| traps_behind(node, manager).contains(&name))
}

/// How many manager entries lead from one thread to the other at least; 0 to itself.
pub fn entries_between(node: &Node, from: Name, to: Name) -> Option<usize> {
    let mut reached = BTreeSet::from([from]);
    for steps in 0..THREADS {
        if reached.contains(&to) {
            return Some(steps);
        }
        let next: Vec<Name> = reached.iter().flat_map(|&name| managers_of(node, name)).collect();
        reached.extend(next);
    }
    None
}

fn managers_of(node: &Node, name: Name) -> Vec<Name> {
    let Some(thread) = node.thread(name) else { return Vec::new() };
    let entries = (0..KINDS).map(|kind| thread.manager(kind));
    entries
        .filter_map(|entry| if let Manager::Thread(manager) = entry { Some(manager) } else { None })
        .collect()
}

/// Do the waits for one thread after the other lead round?
pub fn waits_in_ring(node: &Node, name: Name) -> bool {
    let mut name = name;
    for _ in 0..=THREADS {
        let Some(thread) = node.thread(name) else { return false };
        match (thread.state, thread.trapped_on()) {
            (State::Receiving(Wanted::From(sender)), _) => name = sender,
            (_, Some(manager)) => name = manager,
            _ => return false,
        }
    }
    true
}
