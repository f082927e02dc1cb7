//! P1 to P10 of the document.

mod common;
use common::*;
use nucleus::{load, program, Node};

#[test]
fn p1_the_listing() {
    let input = hex("12 0002 02 00, 11 0001 FF, 10 0005 00 00000007, 12 0002 07 00, 12 0002 03 FF, \
         10 0005 01 00000009, 12 0002 08 00, 10 0005 00 00000001");
    let mut output = Vec::new();
    program::run(&input[..], &mut output).unwrap();
    let expected = "1 0 0 0 4 254 1\n2 0 0 1 0 255 0\n3 0 0 1 0 255 0\n4 0 0 1 4 254 0\n5 0 0 0 1 1 7\n\
                    6 4 0 0 0 255 0\n7 0 1 255 0 255 0\n8 3 1 255 0 255 0\nSYSTEM UP\n";
    assert_eq!(String::from_utf8(output).unwrap(), expected);
}

#[test]
fn p2_receive_alone_panics() {
    let mut node = Node::start();
    assert_eq!(accept(&mut node, receive(255)), (0, 3, 255, 0, 255, 0));
    refuse(&mut node, tick(), 1);
    refuse(&mut node, hex("FF"), 1);
}

#[test]
fn p3_twenty_messages() {
    let mut node = Node::start();
    for word in 0..20 {
        assert_eq!(accept(&mut node, send(0, word)), (0, 0, 0, 0, 255, 0));
    }
    refuse(&mut node, send(0, 20), 5);
    assert_eq!(accept(&mut node, receive(255)), (0, 0, 0, 1, 0, 0));
    accept(&mut node, send(0, 21));
    refuse(&mut node, send(0, 22), 5);
}

#[test]
fn p4_twenty_threads() {
    let mut node = with_sons(19);
    refuse(&mut node, request(2, 0), 6);
}

#[test]
fn p5_slices() {
    let mut node = with_sons(19);
    ticks(&mut node, 93);
    assert_eq!(accept(&mut node, tick()), (0, 0, 18, 0, 255, 0));
    assert_eq!(accept(&mut node, tick()), (0, 0, 19, 0, 255, 0));
}

#[test]
fn p6_the_clock() {
    let mut node = Node::start();
    assert_eq!(accept(&mut node, request(8, 0)), (0, 1, 255, 0, 255, 0));
    for _ in 0..19 {
        assert_eq!(accept(&mut node, tick()), (0, 1, 255, 0, 255, 0));
    }
    assert_eq!(accept(&mut node, tick()), (0, 0, 0, 4, 254, 1));
}

fn after_p7() -> Node {
    let mut node = with_sons(1);
    assert_eq!(accept(&mut node, receive(255)), (0, 0, 1, 0, 255, 0));
    assert_eq!(accept(&mut node, request(4, 0)), (0, 0, 1, 4, 254, 0));
    assert_eq!(accept(&mut node, trap(0, 10)), (0, 0, 0, 2, 1, 10));
    node
}

#[test]
fn p7_a_notice() {
    after_p7();
}

#[test]
fn p8_a_bad_decision() {
    refuse(&mut after_p7(), send(1, 5), 9);
}

#[test]
fn p9_a_trapped_thread_is_no_reason_to_idle() {
    assert_eq!(accept(&mut after_p7(), receive(255)), (0, 3, 255, 0, 255, 0));
}

#[test]
fn p10_the_first_dump() {
    let expected =
        hex("010009 00 00 00 05 00 00000000 020011 00 FF 00 00 FFFFFF 00000000 00 FF 00000000 030000 040000");
    assert_eq!(expected.len(), 38);
    assert_eq!(Node::start().dump(), expected);
    assert_eq!(load(&expected), Ok(Node::start()));
}
