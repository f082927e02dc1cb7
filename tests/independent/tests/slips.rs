//! The slips the document wants kept out: each test fails with its slip.

mod common;
use common::*;
use nucleus::Node;

/// Slip: idling while the only threads left wait for messages or managers.
#[test]
fn no_idling_for_a_trapped_thread() {
    let mut node = with_sons(1);
    accept(&mut node, receive(255));
    accept(&mut node, request(4, 0));
    accept(&mut node, trap(0, 10));
    assert_eq!(accept(&mut node, receive(255)).1, 3);
}

/// Slip: a newcomer gets an ended thread's name with messages under it.
#[test]
fn a_returned_name_has_no_old_messages() {
    let mut node = with_sons(1);
    accept(&mut node, send(1, 100));
    let_run(&mut node, 1);
    accept(&mut node, send(0, 101));
    accept(&mut node, send(1, 102));
    let_run(&mut node, 0);
    accept(&mut node, request(3, 1));
    assert_eq!(node.blocks().in_use(), 0);
    // Make and end sons until the name 1 comes round.
    for name in 2..=253 {
        assert_eq!(accept(&mut node, request(2, 0)).5, name);
        accept(&mut node, request(3, name as u8));
    }
    assert_eq!(accept(&mut node, request(2, 0)), (0, 0, 0, 4, 254, 1), "0 is in use");
    // Thread 0 has no message of 1, and 1 has none at all.
    assert_eq!(accept(&mut node, receive(1)), (0, 0, 1, 0, 255, 0));
    accept(&mut node, send(0, 7));
    assert_eq!(accept(&mut node, receive(255)), (0, 0, 0, 1, 1, 7));
}

/// Slip: an ended thread keeps its message blocks or its thread block.
#[test]
fn an_ended_thread_frees_its_blocks() {
    let mut node = with_sons(19);
    for word in 0..20 {
        accept(&mut node, send(1, word));
    }
    refuse(&mut node, send(2, 0), 5);
    refuse(&mut node, request(2, 0), 6);
    accept(&mut node, request(3, 1));
    assert_eq!(accept(&mut node, request(2, 0)).5, 20);
    for word in 0..20 {
        accept(&mut node, send(2, word));
    }
    refuse(&mut node, send(2, 0), 5);
}

/// Slip: counting a notice among the 20.
#[test]
fn a_notice_is_not_counted() {
    // Notice first, then 20 messages.
    let mut node = with_sons(1);
    let_run(&mut node, 1);
    accept(&mut node, request(5, 0));
    accept(&mut node, trap(1, 9));
    for word in 0..20 {
        accept(&mut node, send(0, word));
    }
    refuse(&mut node, send(0, 20), 5);
    assert_eq!(accept(&mut node, receive(255)), (0, 0, 0, 2, 1, 9));
    // Reading a notice frees no common block.
    refuse(&mut node, send(0, 20), 5);
    assert_eq!(accept(&mut node, receive(255)), (0, 0, 0, 1, 0, 0));
    accept(&mut node, send(0, 20));

    // 20 messages first, then the notice.
    let mut node = with_sons(1);
    for word in 0..20 {
        accept(&mut node, send(0, word));
    }
    let_run(&mut node, 1);
    accept(&mut node, request(6, 0));
    assert_eq!(accept(&mut node, trap(2, 9)), (0, 0, 0, 0, 255, 0));
    assert_eq!(accept(&mut node, receive(1)), (0, 0, 0, 2, 1, 9));
    refuse(&mut node, send(0, 20), 5);
}

/// Slip: renewing the slice after a successful receive.
#[test]
fn a_receive_does_not_renew_the_slice() {
    let mut node = with_sons(1);
    accept(&mut node, send(0, 1));
    ticks(&mut node, 4);
    assert_eq!(accept(&mut node, receive(255)), (0, 0, 0, 1, 0, 1));
    assert_eq!(node.slice(), 1);
    assert_eq!(accept(&mut node, tick()), (0, 0, 1, 0, 255, 0));
}

/// Slip: waking clock waiters behind a runner whose slice ends on that tick.
#[test]
fn clock_waiters_come_before_the_runner() {
    let mut node = with_sons(1);
    accept(&mut node, request(8, 0));
    // Thread 1 runs from tick 0 on, so its fourth slice ends on the beat.
    for _ in 0..19 {
        assert_eq!(accept(&mut node, tick()).2, 1);
    }
    assert_eq!(accept(&mut node, tick()), (0, 0, 0, 4, 254, 1));
    assert_eq!(node.ready().iter().copied().collect::<Vec<_>>(), [1]);
}

/// The steps that must not pass: each number below is the node's own.
#[test]
fn ticks_and_beats_are_counted() {
    let mut node = Node::start();
    ticks(&mut node, 23);
    assert_eq!(accept(&mut node, request(7, 0)), (0, 0, 0, 4, 254, 23));
    accept(&mut node, request(8, 0));
    ticks(&mut node, 16);
    assert_eq!(accept(&mut node, tick()), (0, 0, 0, 4, 254, 2));
    assert_eq!(accept(&mut node, request(7, 0)), (0, 0, 0, 4, 254, 23));
}
