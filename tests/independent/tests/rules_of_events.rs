//! The rules of the events, one by one.

mod common;
use common::*;
use nucleus::{load, pick, Node};

fn ready(node: &Node) -> Vec<u8> {
    node.ready().iter().copied().collect()
}

/// Thread `name` sets the manager and traps.
fn trap_on(node: &mut Node, name: u8, kind: u8, manager: u8, cause: u32) {
    let_run(node, name);
    accept(node, request(4 + kind, manager));
    accept(node, trap(kind, cause));
}

#[test]
fn malformed_bytes() {
    let mut node = Node::start();
    let bad = [
        "",
        "14",
        "1400",
        "14 0001",
        "14 0001 00",
        "14 0000 00",
        "14 0000 14 0000",
        "10 0004 00 000000",
        "10 0006 00 00000000 00",
        "11 0000",
        "11 0002 00 00",
        "12 0001 07",
        "12 0003 07 00 00",
        "13 0004 00 000000",
        "13 0005 03 00000000",
        "15 000C 0000000000000000 00000000",
        "15 000C 0001000000000000 00000000",
        "15 000C 8000000000000001 00000000",
        "15 0008 0000000000000001",
        "12 0002 00 00",
        "12 0002 0A 00",
        "12 0002 01 01",
        "12 0002 02 01",
        "12 0002 07 01",
        "12 0002 08 FF",
        "12 0002 09 30",
        "0F 0000",
        "16 0000",
        "16 0005 00 00000000",
        "01 0009 00 00 00 05 00 00000000",
        "00 0000",
        "FF FFFF",
    ];
    for bytes in bad {
        refuse(&mut node, hex(bytes), 2);
    }
    // 2 comes before 3 and 4.
    accept(&mut node, request(8, 0));
    for bytes in bad {
        refuse(&mut node, hex(bytes), 2);
    }
    refuse(&mut node, request(9, 48), 2);
    refuse(&mut node, send(77, 0), 3);
    refuse(&mut node, receive(255), 3);
    refuse(&mut node, request(3, 255), 3);
    refuse(&mut node, trap(0, 0), 3);
}

#[test]
fn the_pick() {
    assert_eq!(pick(0), (2, 255));
    assert_eq!(pick(1), (0, 0));
    assert_eq!(pick(0b1010_0000), (0, 5));
    assert_eq!(pick(1 << 47), (0, 47));
    assert_eq!(pick(1 << 48), (2, 255));
    assert_eq!(pick(1 | 1 << 63), (2, 255));
    assert_eq!(pick(u64::MAX), (2, 255));
    assert_eq!(pick((1 << 48) - 2), (0, 1));
}

/// Document 02, CR 1.
#[test]
fn terminals_write_before_they_read() {
    let of = |devices: &[u8]| pick(devices.iter().fold(0, |word, device| word | 1u64 << device));
    // The log on terminal 5 before the key on terminal 0.
    assert_eq!(of(&[42, 33]), (0, 42));
    assert_eq!(of(&[46, 33]), (0, 46));
    assert_eq!(of(&[33, 32]), (0, 32));
    assert_eq!(of(&[42, 44, 46]), (0, 42));
    assert_eq!(of(&[47, 33, 35]), (0, 33));
    assert_eq!(of(&[31, 32, 33]), (0, 31));
    assert_eq!(of(&[47, 46, 31, 0]), (0, 0));
    assert_eq!(of(&[42, 33, 48]), (2, 255));
    for device in 0..48 {
        assert_eq!(of(&[device]), (0, device));
    }
}

#[test]
fn an_interrupt_serves_the_picked_device() {
    let mut node = Node::start();
    accept(&mut node, interrupt(1 << 33 | 1 << 42, 7));
    accept(&mut node, interrupt(1 << 33, 8));
    for (device, word) in [(42, 7), (33, 8)] {
        assert_eq!(accept(&mut node, request(9, device)), (0, 0, 0, 4, 254, word));
    }
}

#[test]
fn names_that_are_not_live() {
    let mut node = Node::start();
    for name in [1, 253, 254, 255] {
        refuse(&mut node, send(name, 0), 4);
    }
    for name in [1, 253, 254] {
        refuse(&mut node, receive(name), 4);
        refuse(&mut node, request(3, name), 4);
    }
    for name in [1, 253, 254, 255] {
        for service in 4..=6 {
            refuse(&mut node, request(service, name), 4);
        }
    }
}

#[test]
fn own_name_as_manager_is_refused_even_when_set() {
    let mut node = with_sons(1);
    refuse(&mut node, request(4, 0), 10);
    accept(&mut node, request(4, 1));
    refuse(&mut node, request(4, 0), 10);
    refuse(&mut node, request(4, 9), 4);
}

#[test]
fn setting_a_manager_twice_ends_the_requester() {
    let mut node = with_sons(2);
    let_run(&mut node, 1);
    accept(&mut node, request(2, 0));
    accept(&mut node, request(4, 0));
    assert_eq!(accept(&mut node, request(4, 2)), (0, 0, 2, 0, 255, 0));
    assert!(!node.is_live(1) && !node.is_live(3));
    // A manager that is gone counts as set.
    let mut node = with_sons(2);
    let_run(&mut node, 1);
    accept(&mut node, request(6, 2));
    accept(&mut node, request(3, 2));
    assert_eq!(node.tables().threads[1].managers, [255, 255, 254]);
    assert_eq!(accept(&mut node, request(6, 0)), (0, 0, 0, 0, 255, 0));
    assert!(!node.is_live(1));
}

#[test]
fn brother_of_first_before_full_table() {
    let mut node = with_sons(19);
    refuse(&mut node, request(1, 0), 7);
    let_run(&mut node, 1);
    refuse(&mut node, request(1, 0), 6);
    accept(&mut node, request(3, 2));
    assert_eq!(accept(&mut node, request(1, 0)), (0, 0, 1, 4, 254, 20));
    assert_eq!(node.thread(20).unwrap().parent, Some(0));
    assert_eq!(node.ready().back(), Some(&20));
}

#[test]
fn devices_hold_and_hand_over() {
    let mut node = with_sons(1);
    accept(&mut node, interrupt(1 << 9, 5));
    assert_eq!(accept(&mut node, interrupt(1 << 9 | 1 << 10, 6)), (0, 0, 0, 0, 255, 0));
    assert_eq!(node.held().iter().map(|(&d, &w)| (d, w)).collect::<Vec<_>>(), [(9, 6)]);
    assert_eq!(accept(&mut node, request(9, 9)), (0, 0, 0, 4, 254, 6));
    assert!(node.held().is_empty());
    assert_eq!(accept(&mut node, request(9, 9)), (0, 0, 1, 0, 255, 0));
    refuse(&mut node, request(9, 9), 8);
    assert_eq!(accept(&mut node, request(9, 10)), (0, 1, 255, 0, 255, 0));
    assert_eq!(accept(&mut node, interrupt(1 << 10 | 1 << 9, 77)), (0, 0, 0, 4, 254, 77));
    // The other pending device is forgotten.
    assert_eq!(accept(&mut node, interrupt(1 << 10, 78)), (0, 0, 0, 0, 255, 0));
    assert_eq!(ready(&node), [1]);
    // The waiter's end leaves neither waiter nor word.
    let mut node = with_sons(1);
    let_run(&mut node, 1);
    accept(&mut node, request(9, 0));
    accept(&mut node, request(3, 1));
    accept(&mut node, interrupt(1, 3));
    assert_eq!(accept(&mut node, request(9, 0)), (0, 0, 0, 4, 254, 3));
}

#[test]
fn receive_takes_the_oldest_match() {
    let mut node = with_sons(2);
    accept(&mut node, send(2, 1));
    let_run(&mut node, 1);
    accept(&mut node, send(2, 2));
    accept(&mut node, send(2, 3));
    let_run(&mut node, 2);
    assert_eq!(accept(&mut node, receive(1)), (0, 0, 2, 1, 1, 2));
    assert_eq!(accept(&mut node, receive(255)), (0, 0, 2, 1, 0, 1));
    assert_eq!(accept(&mut node, receive(0)), (0, 0, 0, 0, 255, 0));
    assert_eq!(node.tables().messages.len(), 1);
    assert_eq!(accept(&mut node, send(2, 9)), (0, 0, 0, 0, 255, 0));
    assert_eq!(ready(&node), [1, 2]);
}

#[test]
fn a_waiting_receiver_needs_no_block() {
    let mut node = with_sons(1);
    for word in 0..20 {
        accept(&mut node, send(0, word));
    }
    let_run(&mut node, 1);
    accept(&mut node, receive(0));
    assert_eq!(accept(&mut node, send(1, 50)), (0, 0, 0, 0, 255, 0));
    refuse(&mut node, send(1, 51), 5);
    let_run(&mut node, 1);
    assert_eq!(node.thread(1).unwrap().answer, None);
}

#[test]
fn decisions() {
    // Continue: the unread notice goes, other messages stay.
    let mut node = with_sons(2);
    accept(&mut node, send(0, 4));
    trap_on(&mut node, 1, 2, 0, 30);
    trap_on(&mut node, 2, 1, 0, 31);
    assert_eq!(node.runner(), Some(0));
    assert_eq!(node.tables().messages.len(), 3);
    accept(&mut node, send(1, 0));
    assert_eq!(ready(&node), [1]);
    assert_eq!(accept(&mut node, receive(255)), (0, 0, 0, 1, 0, 4));
    assert_eq!(accept(&mut node, receive(255)), (0, 0, 0, 2, 2, 31));
    refuse(&mut node, send(2, 2), 9);
    // End it.
    accept(&mut node, send(2, 1));
    assert!(!node.is_live(2));
    let_run(&mut node, 1);
}

#[test]
fn only_the_manager_waited_for_decides() {
    let mut node = with_sons(2);
    let_run(&mut node, 1);
    accept(&mut node, request(4, 0));
    accept(&mut node, request(5, 2));
    accept(&mut node, trap(1, 8));
    // 2 is the manager it waits for; 0, of another kind, sends messages.
    let_run(&mut node, 0);
    accept(&mut node, send(1, 1));
    assert!(node.is_live(1));
    assert_eq!(node.blocks().in_use(), 1);
    let_run(&mut node, 2);
    refuse(&mut node, send(1, 7), 9);
    accept(&mut node, send(1, 0));
    let_run(&mut node, 1);
    assert_eq!(accept(&mut node, receive(255)), (0, 0, 1, 1, 0, 1));
}

#[test]
fn a_decision_can_end_the_sender() {
    // 1 is the parent of 2, and 2 the manager of 1.
    let mut node = with_sons(1);
    let_run(&mut node, 1);
    accept(&mut node, request(2, 0));
    trap_on(&mut node, 1, 0, 2, 1);
    let_run(&mut node, 2);
    assert_eq!(accept(&mut node, send(1, 1)), (0, 0, 0, 0, 255, 0));
    assert_eq!(node.threads().len(), 1);
}

#[test]
fn a_ring_of_managers_ends_together() {
    let mut node = with_sons(4);
    for (name, manager) in [(1, 2), (2, 3), (3, 1)] {
        trap_on(&mut node, name, 0, manager, 5);
    }
    let_run(&mut node, 4);
    accept(&mut node, request(4, 1));
    accept(&mut node, request(5, 0));
    accept(&mut node, request(3, 2));
    assert_eq!(node.threads().keys().copied().collect::<Vec<_>>(), [0, 4]);
    assert_eq!(node.runner(), Some(4));
    assert_eq!(node.tables().threads[1].managers, [254, 0, 255]);
    assert!(node.tables().messages.is_empty());
    // The gone manager ends it at the next trap.
    assert_eq!(accept(&mut node, trap(0, 1)).2, 0);
    assert_eq!(node.threads().len(), 1);
}

#[test]
fn receivers_from_ended_threads_wake_in_rising_order() {
    let mut node = with_sons(6);
    let_run(&mut node, 1);
    accept(&mut node, request(2, 0)); // 7, a son of 1
    for (name, wanted) in [(5, 1), (3, 7), (4, 1), (2, 255), (6, 6)] {
        let_run(&mut node, name);
        accept(&mut node, receive(wanted));
    }
    let_run(&mut node, 0);
    let ready_before: Vec<u8> = ready(&node).into_iter().filter(|&n| n != 1 && n != 7).collect();
    assert_eq!(accept(&mut node, request(3, 1)), (0, 0, 0, 0, 255, 0));
    let woken: Vec<u8> = ready(&node)[ready_before.len()..].to_vec();
    assert_eq!(woken, [3, 4, 5]);
    let answers: Vec<_> = [3, 4, 5].map(|n| node.thread(n).unwrap().answer.unwrap().numbers()).to_vec();
    assert_eq!(answers, [(3, 7, 0), (3, 1, 0), (3, 1, 0)]);
}

#[test]
fn an_answer_due_stays_when_its_sender_ends() {
    let mut node = with_sons(2);
    let_run(&mut node, 2);
    accept(&mut node, receive(255));
    let_run(&mut node, 1);
    accept(&mut node, request(4, 2));
    accept(&mut node, trap(0, 44)); // 2 is ready with the notice
    let_run(&mut node, 0);
    if node.thread(2).unwrap().answer.is_some() {
        accept(&mut node, request(3, 1));
        assert_eq!(accept(&mut node, receive(255)), (0, 0, 2, 2, 1, 44));
    } else {
        panic!("2 ran before");
    }
}

#[test]
fn the_end_of_thread_0_halts() {
    let mut node = with_sons(3);
    let_run(&mut node, 2);
    accept(&mut node, interrupt(1 << 40, 9));
    assert_eq!(accept(&mut node, request(3, 0)), (0, 2, 255, 0, 255, 0));
    refuse(&mut node, tick(), 1);
    refuse(&mut node, vec![], 1);
    let dump = node.dump();
    assert_eq!(dump[3..12], hex("02 03 FF 00 0A 00000000"));
    assert_eq!(dump[12..], hex("030000 040000 060005 28 00000009"));
    assert_eq!(load(&dump).unwrap().dump(), dump);
}

#[test]
fn names_go_round_and_pass_over() {
    let mut node = with_sons(2);
    accept(&mut node, request(3, 1));
    for name in 3..=253u8 {
        assert_eq!(accept(&mut node, request(2, 0)).5, name.into());
        if name != 253 {
            accept(&mut node, request(3, name));
        }
    }
    // 0 and 2 are in use, 253 too.
    assert_eq!(accept(&mut node, request(2, 0)).5, 1);
    assert_eq!(accept(&mut node, request(2, 0)).5, 3);
}

#[test]
fn counts_go_round() {
    let mut tables = Node::start().tables();
    tables.beats = u32::MAX;
    tables.ticks_since_beat = 19;
    tables.threads[0].count = u32::MAX;
    let mut node = Node::from_tables(&tables).unwrap();
    accept(&mut node, tick());
    assert_eq!(node.tables().beats, 0);
    assert_eq!(accept(&mut node, request(7, 0)), (0, 0, 0, 4, 254, 0));
    let mut node = Node::from_tables(&tables).unwrap();
    accept(&mut node, request(8, 0));
    assert_eq!(accept(&mut node, tick()), (0, 0, 0, 4, 254, 0));
}

#[test]
fn a_used_up_slice_with_nobody_ready() {
    let mut node = Node::start();
    ticks(&mut node, 4);
    assert_eq!(node.slice(), 1);
    assert_eq!(accept(&mut node, tick()), (0, 0, 0, 0, 255, 0));
    assert_eq!(node.slice(), 5);
}

#[test]
fn waiting_for_oneself() {
    let mut node = with_sons(1);
    accept(&mut node, send(0, 3));
    assert_eq!(accept(&mut node, receive(0)), (0, 0, 0, 1, 0, 3));
    assert_eq!(accept(&mut node, receive(0)), (0, 0, 1, 0, 255, 0));
    accept(&mut node, send(0, 3));
    assert_eq!(accept(&mut node, receive(1)), (0, 3, 255, 0, 255, 0));
}

#[test]
fn clock_waiters_wake_in_order_of_waiting() {
    let mut node = with_sons(3);
    for name in [2, 0] {
        let_run(&mut node, name);
        accept(&mut node, tick());
        accept(&mut node, request(8, 0));
    }
    assert_eq!((node.ticks_since_beat(), node.runner()), (17, Some(1)));
    ticks(&mut node, 3);
    // A wake does not take the processor from the runner.
    assert_eq!((node.slice(), node.runner()), (2, Some(1)));
    assert_eq!(ready(&node), [3, 2, 0]);
}
