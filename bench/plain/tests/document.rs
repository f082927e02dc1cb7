//! P1 to P10 of document 01, from the document alone.

use plain::{Answer, Plain};

/// Refusal, status, runner, kind, sender, word.
type Numbers = (u8, u8, u8, u8, u8, u32);

const TICK: [u8; 3] = [20, 0, 0];

fn send(to: u8, word: u8) -> [u8; 8] {
    [16, 0, 5, to, 0, 0, 0, word]
}

fn receive(from: u8) -> [u8; 4] {
    [17, 0, 1, from]
}

fn request(service: u8, argument: u8) -> [u8; 5] {
    [18, 0, 2, service, argument]
}

fn step(plain: &mut Plain, field: &[u8]) -> Numbers {
    let decision = plain.step(field);
    let Answer { kind, sender, word } = decision.answer;
    (decision.refusal, decision.status, decision.runner, kind, sender, word)
}

fn refusal(plain: &mut Plain, field: &[u8]) -> u8 {
    step(plain, field).0
}

#[test]
fn p1_listing() {
    let mut plain = Plain::start();
    let mut said = |field: &[u8]| step(&mut plain, field);
    assert_eq!(said(&request(2, 0)), (0, 0, 0, 4, 254, 1));
    assert_eq!(said(&receive(255)), (0, 0, 1, 0, 255, 0));
    assert_eq!(said(&send(0, 7)), (0, 0, 1, 0, 255, 0));
    assert_eq!(said(&request(7, 0)), (0, 0, 1, 4, 254, 0));
    assert_eq!(said(&request(3, 255)), (0, 0, 0, 1, 1, 7));
    assert_eq!(said(&send(1, 9)), (4, 0, 0, 0, 255, 0));
    assert_eq!(said(&request(8, 0)), (0, 1, 255, 0, 255, 0));
    assert_eq!(said(&send(0, 1)), (3, 1, 255, 0, 255, 0));
}

#[test]
fn p2_receive_alone() {
    assert_eq!(step(&mut Plain::start(), &receive(255)), (0, 3, 255, 0, 255, 0));
}

#[test]
fn p3_blocks() {
    let mut plain = Plain::start();
    for word in 0..20 {
        assert_eq!(refusal(&mut plain, &send(0, word)), 0);
    }
    assert_eq!(refusal(&mut plain, &send(0, 20)), 5);
    assert_eq!(step(&mut plain, &receive(255)), (0, 0, 0, 1, 0, 0));
    assert_eq!(refusal(&mut plain, &send(0, 20)), 0);
}

#[test]
fn p4_and_p5_sons_and_their_turns() {
    let mut plain = Plain::start();
    for name in 1..=19 {
        assert_eq!(step(&mut plain, &request(2, 0)), (0, 0, 0, 4, 254, name));
    }
    assert_eq!(refusal(&mut plain, &request(2, 0)), 6);
    let runners: Vec<u8> = (0..95).map(|_| plain.step(&TICK).runner).collect();
    assert_eq!((runners[93], runners[94]), (18, 19));
}

#[test]
fn p6_clock() {
    let mut plain = Plain::start();
    assert_eq!(step(&mut plain, &request(8, 0)), (0, 1, 255, 0, 255, 0));
    for _ in 1..=19 {
        assert_eq!(step(&mut plain, &TICK), (0, 1, 255, 0, 255, 0));
    }
    assert_eq!(step(&mut plain, &TICK), (0, 0, 0, 4, 254, 1));
}

fn after_p7() -> Plain {
    let mut plain = Plain::start();
    for field in [&request(2, 0)[..], &receive(255), &request(4, 0)] {
        assert_eq!(refusal(&mut plain, field), 0);
    }
    assert_eq!(step(&mut plain, &[19, 0, 5, 0, 0, 0, 0, 10]), (0, 0, 0, 2, 1, 10));
    plain
}

#[test]
fn p8_and_p9_behind_a_notice() {
    assert_eq!(step(&mut after_p7(), &send(1, 5)), (9, 0, 0, 0, 255, 0));
    assert_eq!(step(&mut after_p7(), &receive(255)), (0, 3, 255, 0, 255, 0));
}

#[test]
fn p10_dump_of_a_start() {
    #[rustfmt::skip]
    let expected = [
        1, 0, 9, 0, 0, 0, 5, 0, 0, 0, 0, 0,
        2, 0, 17, 0, 255, 0, 0, 255, 255, 255, 0, 0, 0, 0, 0, 255, 0, 0, 0, 0,
        3, 0, 0, 4, 0, 0,
    ];
    let mut buffer = [0; 38];
    assert_eq!(Plain::start().dump(&mut buffer), Ok(38));
    assert_eq!(buffer, expected);
}
