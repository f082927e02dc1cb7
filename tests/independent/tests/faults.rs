//! Where a dump is bad: number and offset of small dumps, worked out by hand from document 02 and the readings of it.

mod common;
use common::*;
use nucleus::load;

// The fields of a small dump. Behind each, the offset of its first byte when they stand in this order.
const HEAD: &str = "010009 00 05 00 03 07 00000002"; // 0
const ZERO: &str = "020011 00 FF 00 00 FFFFFF 00000000 00 FF 00000000"; // 12: runs
const ONE: &str = "020011 01 00 01 00 FEFFFF 00000000 01 63 00000009"; // 32: ready, with a message of 99, who has ended
const TWO: &str = "020011 02 01 02 01 FFFFFF 00000000 00 FF 00000000"; // 52: receives from 1
const THREE: &str = "020011 03 00 03 00 FFFFFF 00000000 00 FF 00000000"; // 72: waits for the clock
const FOUR: &str = "020011 04 00 04 07 FFFFFF 00000000 00 FF 00000000"; // 92: waits for device 7
const FIVE: &str = "020011 05 04 05 02 FEFF00 00000000 00 FF 00000000"; // 112: trapped on 0
const READY: &str = "030001 01"; // 132
const CLOCK: &str = "040001 03"; // 136
const NOTICE: &str = "050007 00 05 02 00000009"; // 140: of 5 to 0
const MESSAGE: &str = "050007 04 01 01 00000009"; // 150: of 1 to 4
const HELD: &str = "060005 08 00000001"; // 160
const LENGTH: usize = 168;

const GOOD: [&str; 12] = [HEAD, ZERO, ONE, TWO, THREE, FOUR, FIVE, READY, CLOCK, NOTICE, MESSAGE, HELD];

fn verdict(fields: &[&str]) -> (u8, usize) {
    load(&hex(&fields.join(" "))).map_or_else(|bad| bad.numbers(), |_| (0, 0))
}

/// The small dump with another field in place of one of its own.
fn with(field: &str, other: &str) -> (u8, usize) {
    with_both((field, other), (field, other))
}

fn with_both(one: (&str, &str), two: (&str, &str)) -> (u8, usize) {
    let change =
        |field: &&'static str| [one, two].into_iter().find(|(old, _)| old == field).map(|(_, new)| new);
    let fields: Vec<&str> = GOOD.iter().map(|field| change(field).unwrap_or(field)).collect();
    verdict(&fields)
}

/// The small dump with a field put in at this place of the row.
fn with_field_at(place: usize, field: &str) -> (u8, usize) {
    let mut fields = GOOD.to_vec();
    fields.insert(place, field);
    verdict(&fields)
}

fn without(field: &str) -> (u8, usize) {
    let fields: Vec<&str> = GOOD.into_iter().filter(|&other| other != field).collect();
    verdict(&fields)
}

/// Reading 83: "Accepted: number 0, offset 0."
#[test]
fn the_small_dump_is_one() {
    assert_eq!(hex(&GOOD.join(" ")).len(), LENGTH);
    assert_eq!(verdict(&GOOD), (0, 0));
    let offsets: Vec<usize> = (0..GOOD.len()).map(|place| hex(&GOOD[..place].concat()).len()).collect();
    assert_eq!(offsets, [0, 12, 32, 52, 72, 92, 112, 132, 136, 140, 150, 160]);
}

// ---- 15

/// "Or the length of the input where a field is missing".
#[test]
fn missing_fields() {
    assert_eq!(verdict(&[]), (15, 0));
    assert_eq!(without(HEAD), (15, LENGTH - 12));
    assert_eq!(without(READY), (15, LENGTH - 4));
    assert_eq!(without(CLOCK), (15, LENGTH - 4));
    assert_eq!(verdict(&[HEAD]), (15, 12));
    assert_eq!(verdict(&["030000", "040000"]), (15, 6));
    // Field 2 may be missing as a field, but thread 0 runs.
    assert_eq!(verdict(&[HEAD, "030000", "040000"]), (18, 0));
}

/// Reading 73: a value that is not all there is cut, whatever its length says; one or two stray bytes too.
#[test]
fn cut_fields() {
    let whole = hex(&GOOD.join(" "));
    for length in LENGTH - 7..LENGTH {
        assert_eq!(load(&whole[..length]).unwrap_err().numbers(), (15, length), "{length}");
    }
    assert!(load(&whole[..160]).is_ok(), "without the held word");
    assert_eq!(with(HELD, "060006 08 00000001"), (15, LENGTH), "wrong and past the end");
    assert_eq!(with(HELD, "06FFFF 08 00000001"), (15, LENGTH));
    assert_eq!(with(HELD, "060004 08 000000"), (15, 160), "wrong and all there");
    assert_eq!(with_field_at(12, "00"), (15, LENGTH + 1));
    assert_eq!(with_field_at(12, "0600"), (15, LENGTH + 2));
    assert_eq!(with_field_at(12, "060005"), (15, LENGTH + 3));
    assert_eq!(verdict(&["01"]), (15, 1));
    assert_eq!(verdict(&["010009"]), (15, 3));
    // A cut field hides what stands behind it: here all of the dump.
    assert_eq!(with(HEAD, "01FFFF 00 05 00 03 07 00000002"), (15, LENGTH));
}

#[test]
fn wrong_lengths() {
    assert_eq!(with(HEAD, "01000A 00 05 00 03 07 00000002 00"), (15, 0));
    assert_eq!(with(HEAD, "010000"), (15, 0));
    assert_eq!(with(TWO, "020010 02 01 02 01 FFFFFF 00000000 00 FF 000000"), (15, 52));
    assert_eq!(with(NOTICE, "050000"), (15, 140));
    assert_eq!(with(NOTICE, "05000B 00 05 02 00000009 00000000"), (15, 140), "the length of request 7");
    assert_eq!(with(HELD, "060000"), (15, 160));
    // Reading 74: the earliest field; what is cut or missing stands at the end.
    assert_eq!(with_both((TWO, "020000"), (ONE, "020000")), (15, 32));
    assert_eq!(with_both((TWO, "020000"), (HELD, "060005 08")), (15, 52));
    assert_eq!(with_both((TWO, "020000"), (CLOCK, "")), (15, 52));
}

/// Reading 75: any number of names may stand in 3 and 4; too many are 17, 18 or 19 by what they are.
#[test]
fn long_queues() {
    assert_eq!(with(READY, "030000"), (19, 0));
    assert_eq!(with(READY, "030002 01 01"), (19, 0));
    assert_eq!(with(READY, &format!("030100 {}", "01".repeat(256))), (19, 0));
    assert_eq!(with(READY, &format!("030100 {}", "63".repeat(256))), (18, 132));
    assert_eq!(with(READY, &format!("030100 {}", "FF".repeat(256))), (17, 132));
}

/// Reading 76: an unknown tag is 16 with any length, and 15 only if it is cut.
#[test]
fn unknown_tags_and_lengths() {
    assert_eq!(with_field_at(3, "070000"), (16, 52));
    assert_eq!(with_field_at(3, "070005 01 02 03 04 05"), (16, 52));
    // Its length is skipped, whatever stands there.
    assert_eq!(with_field_at(3, &format!("FF000C {HEAD}")), (16, 52));
    assert_eq!(with_field_at(12, "070001"), (15, LENGTH + 3));
    // All behind it is its value, and it is cut.
    assert_eq!(with_field_at(3, "07FFFF"), (15, LENGTH + 3));
    // It hides a field 4 that is in its value.
    assert_eq!(with(CLOCK, &format!("070004 {CLOCK}")), (15, LENGTH + 3));
    // And only 15 counts if both are there.
    assert_eq!(with_both((ZERO, "000000"), (HELD, "060000")), (15, 143));
}

// ---- 16

/// Reading 77: the first field whose tag ranks below the one before it.
#[test]
fn tags_out_of_order() {
    // 1 2 2 2 2 2 3 2 4 ..: the last thread behind the ready names.
    assert_eq!(with_both((FIVE, READY), (READY, FIVE)), (16, 116));
    // 2 1 2 ..
    assert_eq!(with_both((HEAD, ZERO), (ZERO, HEAD)), (16, 20));
    // 3 4 turned round.
    assert_eq!(with_both((READY, CLOCK), (CLOCK, READY)), (16, 136));
    // The held word in front: the head ranks below it, not the held word.
    assert_eq!(with_both((HEAD, HELD), (HELD, HEAD)), (16, 8));
    // It came too early and is not at fault; the message behind it is.
    assert_eq!(with_both((NOTICE, HELD), (HELD, NOTICE)), (16, 148));
    // Two falls: the earlier one.
    assert_eq!(verdict(&[CLOCK, READY, HEAD]), (16, 4));
}

/// Reading 78: a second 1, 3 or 4. Other fields may stand more than once.
#[test]
fn second_fields() {
    assert_eq!(with_field_at(1, HEAD), (16, 12));
    assert_eq!(with_field_at(12, HEAD), (16, LENGTH));
    assert_eq!(with_field_at(8, READY), (16, 136));
    assert_eq!(with_field_at(8, "030000"), (16, 136));
    assert_eq!(with_field_at(9, CLOCK), (16, 140));
    assert_eq!(with_field_at(11, MESSAGE), (0, 0));
    assert_eq!(with_field_at(12, HELD), (19, 0));
}

/// Reading 84: 8, 9 and 10 are unknown until their requests land, and 7 always.
#[test]
fn tags_of_later_requests() {
    assert_eq!(with_field_at(0, "080002 40 80"), (16, 0));
    assert_eq!(with_field_at(9, "090000"), (16, 140));
    assert_eq!(with_field_at(12, "0A0000"), (16, LENGTH));
    assert_eq!(with_field_at(12, "070000"), (16, LENGTH));
    assert_eq!(with_field_at(0, "000000"), (16, 0));
    // Messages of kind 5 come with request 6.
    assert_eq!(with(MESSAGE, "050007 04 01 05 00000009"), (17, 150));
}

// ---- 17

/// Reading 80, the head: "status over 3", runner 254, and the slice by the runner.
#[test]
fn ranges_of_the_head() {
    assert_eq!(with(HEAD, "010009 04 05 00 03 07 00000002"), (17, 0));
    assert_eq!(with(HEAD, "010009 00 FE 00 03 07 00000002"), (17, 0));
    assert_eq!(with(HEAD, "010009 00 FF 00 03 07 00000002"), (17, 0));
    assert_eq!(with(HEAD, "010009 00 05 FE 03 07 00000002"), (17, 0));
    assert_eq!(with(HEAD, "010009 00 05 00 00 07 00000002"), (17, 0));
    assert_eq!(with(HEAD, "010009 00 05 00 06 07 00000002"), (17, 0));
    assert_eq!(with(HEAD, "010009 01 05 FF 03 07 00000002"), (17, 0), "a slice without a runner");
    assert_eq!(with(HEAD, "010009 00 05 00 03 14 00000002"), (17, 0));
    // Status against runner is 19, and so is a runner against the states.
    assert_eq!(with(HEAD, "010009 01 05 00 03 07 00000002"), (19, 0));
    assert_eq!(with(HEAD, "010009 01 05 FF 00 07 00000002"), (19, 0));
    // The name given last is no live one, and nothing asks for that.
    assert_eq!(with(HEAD, "010009 00 FD 00 05 13 FFFFFFFF"), (0, 0));
}

/// Readings 79 and 80, a thread: the detail by the state, the answer by its kind.
#[test]
fn ranges_of_threads() {
    assert_eq!(with(FIVE, "020011 FE 04 05 02 FEFF00 00000000 00 FF 00000000"), (17, 112));
    assert_eq!(with(FIVE, "020011 FF 04 05 02 FEFF00 00000000 00 FF 00000000"), (17, 112));
    assert_eq!(with(FOUR, "020011 04 FE 04 07 FFFFFF 00000000 00 FF 00000000"), (17, 92));
    assert_eq!(with(FOUR, "020011 04 00 06 07 FFFFFF 00000000 00 FF 00000000"), (17, 92));
    // The detail: of a runner, a ready thread, a receiver, a waiter for the clock, for a device, one trapped.
    assert_eq!(with(ZERO, "020011 00 FF 00 01 FFFFFF 00000000 00 FF 00000000"), (17, 12));
    assert_eq!(with(ONE, "020011 01 00 01 01 FEFFFF 00000000 01 63 00000009"), (17, 32));
    assert_eq!(with(TWO, "020011 02 01 02 FE FFFFFF 00000000 00 FF 00000000"), (17, 52));
    assert_eq!(with(THREE, "020011 03 00 03 FF FFFFFF 00000000 00 FF 00000000"), (17, 72));
    assert_eq!(with(FOUR, "020011 04 00 04 30 FFFFFF 00000000 00 FF 00000000"), (17, 92));
    assert_eq!(with(FIVE, "020011 05 04 05 03 FEFF00 00000000 00 FF 00000000"), (17, 112));
    // Manager bytes are always in range.
    assert_eq!(with(FOUR, "020011 04 00 04 07 FEFE05 00000000 00 FF 00000000"), (0, 0));
}

#[test]
fn ranges_of_answers() {
    let one = |answer: &str| with(ONE, &format!("020011 01 00 01 00 FEFFFF 00000000 {answer}"));
    for good in ["00 FF 00000000", "01 00 00000000", "02 FD FFFFFFFF", "03 63 00000000", "04 FE 12345678"] {
        assert_eq!(one(good), (0, 0), "{good}");
    }
    for bad in [
        "05 00 00000000",
        "00 FE 00000000",
        "00 00 00000000",
        "00 FF 00000001",
        "01 FE 00000000",
        "01 FF 00000000",
        "02 FE 00000000",
        "02 FF 00000000",
        "03 FE 00000000",
        "03 63 00000001",
        "04 FF 00000000",
        "04 00 00000000",
    ] {
        assert_eq!(one(bad), (17, 32), "{bad}");
    }
    // A well-formed answer of a thread that is not ready is 19, one that is not well-formed 17.
    assert_eq!(with(FOUR, "020011 04 00 04 07 FFFFFF 00000000 04 FE 00000000"), (19, 0));
    assert_eq!(with(ZERO, "020011 00 FF 00 00 FFFFFF 00000000 01 01 00000000"), (19, 0));
    assert_eq!(with(FOUR, "020011 04 00 04 07 FFFFFF 00000000 04 00 00000000"), (17, 92));
}

#[test]
fn ranges_behind_the_threads() {
    assert_eq!(with(READY, "030002 01 FE"), (17, 132));
    assert_eq!(with(CLOCK, "040002 FF 03"), (17, 136));
    assert_eq!(with(MESSAGE, "050007 FE 01 01 00000009"), (17, 150));
    assert_eq!(with(MESSAGE, "050007 04 FF 01 00000009"), (17, 150));
    assert_eq!(with(MESSAGE, "050007 04 01 00 00000009"), (17, 150));
    assert_eq!(with(MESSAGE, "050007 04 01 03 00000009"), (17, 150));
    assert_eq!(with(HELD, "060005 30 00000001"), (17, 160));
    // The earliest of two.
    assert_eq!(with_both((HELD, "060005 30 00000001"), (READY, "030001 FF")), (17, 132));
}

// ---- 18

/// Reading 81: everywhere that a rule makes the name live.
#[test]
fn names_that_are_not_live() {
    assert_eq!(with(HEAD, "010009 00 05 63 03 07 00000002"), (18, 0));
    assert_eq!(with(FOUR, "020011 04 63 04 07 FFFFFF 00000000 00 FF 00000000"), (18, 92));
    assert_eq!(with(TWO, "020011 02 01 02 63 FFFFFF 00000000 00 FF 00000000"), (18, 52));
    assert_eq!(with(FOUR, "020011 04 00 04 07 FFFF63 00000000 00 FF 00000000"), (18, 92));
    assert_eq!(with(FIVE, "020011 05 04 05 02 FEFF63 00000000 00 FF 00000000"), (18, 112));
    assert_eq!(with(READY, "030002 01 63"), (18, 132));
    assert_eq!(with(CLOCK, "040001 63"), (18, 136));
    assert_eq!(with(MESSAGE, "050007 63 01 01 00000009"), (18, 150));
    assert_eq!(with(MESSAGE, "050007 04 63 01 00000009"), (18, 150));
    assert_eq!(with(NOTICE, "050007 00 63 02 00000009"), (18, 140));
    // A thread is lost: the first field that names it. 1 is wanted by 2 and is its parent.
    assert_eq!(without(ONE), (18, 32));
    assert_eq!(without(ZERO), (18, 0));
    assert_eq!(without(THREE), (18, 116));
    assert_eq!(without(FIVE), (18, 120));
}

/// Reading 82: an entry that is none or gone where a trapped thread waits for it; but the roots are 19.
#[test]
fn no_manager_of_a_trapped_thread() {
    assert_eq!(with(FIVE, "020011 05 04 05 02 FEFFFF 00000000 00 FF 00000000"), (18, 112));
    assert_eq!(with(FIVE, "020011 05 04 05 02 00FFFE 00000000 00 FF 00000000"), (18, 112));
    assert_eq!(with(FOUR, "020011 04 FF 04 07 FFFFFF 00000000 00 FF 00000000"), (19, 0));
    assert_eq!(with(ZERO, "020011 00 01 00 00 FFFFFF 00000000 00 FF 00000000"), (19, 0));
}

// ---- 19

/// Reading 83, and the other rules; with offset 0 each.
#[test]
fn other_rules() {
    let thread = |values: &str| format!("020011 {values} FFFFFF 00000000 00 FF 00000000");
    let others = [
        ("4 twice", with_field_at(6, &thread("04 00 02 FF"))),
        ("names not rising", with_both((THREE, FOUR), (FOUR, THREE))),
        ("its own parent", with(FOUR, &thread("04 04 04 07"))),
        ("parents in a ring", with(FOUR, &thread("04 05 04 07"))),
        ("own manager", with(FOUR, "020011 04 00 04 07 04FFFF 00000000 00 FF 00000000")),
        ("two run", with(FOUR, &thread("04 00 00 00"))),
        ("ready and not in the queue", with(FOUR, &thread("04 00 01 00"))),
        ("not ready and in the queue", with(READY, "030002 01 04")),
        ("waits for the clock and not in the queue", with(CLOCK, "040000")),
        ("in the clock queue twice", with(CLOCK, "040002 03 03")),
        ("two wait for device 7", with(THREE, &thread("03 00 04 07"))),
        ("waited for and held", with(HELD, "060005 07 00000001")),
        ("held twice", with_field_at(12, HELD)),
        ("devices not rising", with_field_at(12, "060005 01 00000000")),
        ("receivers not rising", with_both((NOTICE, MESSAGE), (MESSAGE, NOTICE))),
        ("2 wants a message of 1", with_field_at(10, "050007 02 01 01 00000000")),
        ("the notice of one not trapped", with(NOTICE, "050007 00 04 02 00000009")),
        ("the notice to another one", with(NOTICE, "050007 01 05 02 00000009")),
        ("two notices", with_field_at(10, NOTICE)),
        ("21 messages", with(MESSAGE, &[MESSAGE; 21].join(" "))),
        ("status", with(HEAD, "010009 03 05 00 03 07 00000002")),
    ];
    for (what, found) in others {
        assert_eq!(found, (19, 0), "{what}");
    }
    assert_eq!(with(MESSAGE, &[MESSAGE; 20].join(" ")), (0, 0));
    let many: Vec<String> = (6..=20).map(|name| thread(&format!("{name:02X} 00 02 FF"))).collect();
    assert_eq!(with_field_at(7, &many[..14].join(" ")), (0, 0), "20 threads");
    assert_eq!(with_field_at(7, &many.join(" ")), (19, 0), "21 threads");
}

/// Nobody is ready without a runner; all else holds here: 0 and 3 wait for the clock.
#[test]
fn nobody_is_ready_without_a_runner() {
    let zero = "020011 00 FF 03 00 FFFFFF 00000000 00 FF 00000000";
    let head = "010009 01 05 FF 00 07 00000002";
    let fields = |ready, one| [head, zero, one, THREE, ready, "040002 00 03"];
    assert_eq!(verdict(&fields("030001 01", "020011 01 00 01 00 FFFFFF 00000000 00 FF 00000000")), (19, 0));
    assert_eq!(verdict(&fields("030000", "020011 01 00 02 00 FFFFFF 00000000 00 FF 00000000")), (0, 0));
}

// ---- several numbers

/// "Where several rules fail, the first in the list below counts, and within it the earliest field."
#[test]
fn the_first_number_counts_wherever_it_stands() {
    let second_ready = "030001 01 030001 01";
    let device_48 = "060005 30 00000001";
    let zero_with_parent = "020011 00 01 00 00 FFFFFF 00000000 00 FF 00000000";
    let dead_runner = "010009 00 05 63 03 07 00000002";
    let bad_status = "010009 04 05 00 03 07 00000002";
    // 15 behind 16, 17, 18, 19.
    assert_eq!(with_both((READY, second_ready), (HELD, "060000")), (15, 164));
    assert_eq!(with_both((HEAD, bad_status), (HELD, "060000")), (15, 160));
    assert_eq!(with_both((HEAD, dead_runner), (HELD, "060000")), (15, 160));
    assert_eq!(with_both((ZERO, zero_with_parent), (HELD, "060000")), (15, 160));
    // 16 behind 17, 18, 19.
    assert_eq!(with_both((HEAD, bad_status), (READY, second_ready)), (16, 136));
    assert_eq!(with_both((HEAD, dead_runner), (READY, second_ready)), (16, 136));
    assert_eq!(with_both((ZERO, zero_with_parent), (READY, second_ready)), (16, 136));
    // 17 behind 18 and 19, 18 behind 19.
    assert_eq!(with_both((HEAD, dead_runner), (HELD, device_48)), (17, 160));
    assert_eq!(with_both((ZERO, zero_with_parent), (HELD, device_48)), (17, 160));
    assert_eq!(with_both((ZERO, zero_with_parent), (READY, "030002 01 63")), (18, 132));
    // A name that is not live stands before one out of range, and makes its field a byte longer.
    assert_eq!(with_both((READY, "030002 01 63"), (CLOCK, "040002 03 FE")), (17, 137));
}

/// The dump of P10, byte by byte: each prefix is cut or lacks a field.
#[test]
fn every_prefix_of_p10() {
    let dump =
        hex("010009 00 00 00 05 00 00000000 020011 00 FF 00 00 FFFFFF 00000000 00 FF 00000000 030000 040000");
    assert_eq!(dump.len(), 38);
    for length in 0..38 {
        assert_eq!(load(&dump[..length]).unwrap_err().numbers(), (15, length));
    }
    assert!(load(&dump).is_ok());
}
