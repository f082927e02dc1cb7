//! Bytes that are no dump: each number of document 02, CR 4, with its offset, from the documents alone. Fields are in hex.

use plain::lent::{load_checked, Tables};
use plain::{load, Bad};

/// P10's dump in parts. The second thread is ready, with an answer of a sender that has ended.
const HEAD: &str = "010009 00 00 00 05 00 00000000";
const THREAD: &str = "020011 00 FF 00 00 FFFFFF 00000000 00 FF 00000000";
const QUEUES: &str = "030000 040000";
const SECOND: &str = "020011 01 00 01 00 FFFFFF 00000000 01 63 00000007";
const READY: &str = "030001 01 040000";

fn bytes_of(parts: &[&str]) -> Vec<u8> {
    let digits: Vec<u32> = parts.concat().chars().filter_map(|digit| digit.to_digit(16)).collect();
    digits.chunks(2).map(|pair| (pair[0] * 16 + pair[1]) as u8).collect()
}

/// What is said of these bytes, by both readers. A refusal leaves the tables as they are.
fn told(bytes: &[u8]) -> (u8, usize) {
    let found = load(bytes).map(drop);
    let before = Tables::start();
    let mut tables = before.clone();
    assert_eq!(load_checked(&mut tables, bytes), found);
    match found {
        Ok(()) => (0, 0),
        Err(Bad { refusal, offset }) => {
            assert_eq!(tables, before);
            (refusal, offset)
        }
    }
}

fn expect(refusal: u8, cases: &[(&[&str], usize)]) {
    for (parts, offset) in cases {
        assert_eq!(told(&bytes_of(parts)), (refusal, *offset), "{parts:?}");
    }
}

/// Names that need not be live: the one given last, and the senders of answers.
#[test]
fn dumps() {
    let ended = "010009 00 FD 00 05 00 00000000";
    let held = "060005 00 00000000 060005 2F 00000000";
    expect(
        0,
        &[
            (&[HEAD, THREAD, QUEUES], 0),
            (&[ended, THREAD, QUEUES, held], 0),
            (&[HEAD, THREAD, SECOND, READY], 0),
            (&[HEAD, THREAD, QUEUES, "050007 00 00 01 00000007"], 0),
            (&["010009 02 07 FF 00 13 FFFFFFFF", QUEUES], 0),
        ],
    );
}

/// At the end: what is cut or missing. Every byte of a dump can be the first that is not there.
#[test]
fn cut_or_missing() {
    let dump = bytes_of(&[HEAD, THREAD, QUEUES]);
    for length in 0..dump.len() {
        assert_eq!(told(&dump[..length]), (15, length));
    }
    expect(
        15,
        &[
            (&[HEAD, THREAD, QUEUES, "05"], 39),
            (&[HEAD, THREAD, QUEUES, "0500"], 40),
            (&[HEAD, THREAD, QUEUES, "050007 00 00 01 000000"], 47),
            // A length that is wrong and past the end: the value is not there to be measured.
            (&[HEAD, THREAD, QUEUES, "050009 00 00 01 000000"], 47),
            // Of an unknown tag too.
            (&[HEAD, THREAD, QUEUES, "07FFFF 00"], 42),
            (&[THREAD, QUEUES], 26),
            (&[HEAD, THREAD, "040000"], 35),
            (&[HEAD, THREAD, "030000"], 35),
            // Before all that is wrong with tags and values.
            (&["070000", HEAD, THREAD, "030001 FF"], 39),
            (&["030000", "010009 09 00 00 05 00 00000000"], 15),
        ],
    );
}

/// At the first of them; what is cut or missing stands behind.
#[test]
fn wrong_length() {
    expect(
        15,
        &[
            (&["01000A 00 00 00 05 00 00000000 00", THREAD, QUEUES], 0),
            (&["010000", THREAD, QUEUES], 0),
            (&[HEAD, "020010 00 FF 00 00 FFFFFF 00000000 00 FF 000000", QUEUES], 12),
            (&[HEAD, "020000", QUEUES], 12),
            (&[HEAD, "020111", &"00".repeat(0x111), QUEUES], 12),
            (&[HEAD, THREAD, QUEUES, "050008 00 00 01 00000000 00"], 38),
            (&[HEAD, THREAD, QUEUES, "060004 00 000000"], 38),
            (&[HEAD, THREAD, "060000", "050000", "030001"], 32),
            (&["070000", QUEUES, "020000"], 9),
            // The lengths of 3 and 4 are free, so here 4 alone is missing.
            (&[HEAD, THREAD, "030015", &"00".repeat(21)], 56),
        ],
    );
}

#[test]
fn order_of_tags() {
    let message = "050007 00 00 01 00000007";
    expect(
        16,
        &[
            (&[HEAD, THREAD, QUEUES, "070000"], 38),
            (&[HEAD, THREAD, QUEUES, "000000"], 38),
            (&[HEAD, THREAD, QUEUES, "FF0002 0000"], 38),
            (&["080002 40 80", HEAD, THREAD, QUEUES], 0),
            (&[HEAD, THREAD, "030000", "090000", "040000"], 35),
            (&[HEAD, THREAD, QUEUES, "0A0000"], 38),
            // A field whose tag ranks below the one right before it, and not the one that came too early.
            (&[HEAD, THREAD, "040000", "030000"], 35),
            (&[THREAD, HEAD, QUEUES], 20),
            (&[HEAD, QUEUES, THREAD], 18),
            (&[HEAD, THREAD, QUEUES, "060005 00 00000000", message], 46),
            (&[HEAD, THREAD, message, QUEUES], 42),
            // A second 1, 3 or 4.
            (&[HEAD, HEAD, THREAD, QUEUES], 12),
            (&[HEAD, THREAD, "030000", QUEUES], 35),
            (&[HEAD, THREAD, QUEUES, "040000"], 38),
            (&[HEAD, THREAD, QUEUES, HEAD], 38),
            // Before values: a status of 9.
            (&["010009 09 00 00 05 00 00000000", THREAD, QUEUES, "070000"], 38),
        ],
    );
}

#[test]
fn values_of_the_node() {
    for head in [
        "010009 04 00 00 05 00 00000000",
        "010009 00 FE 00 05 00 00000000",
        "010009 00 FF 00 05 00 00000000",
        "010009 00 00 FE 05 00 00000000",
        "010009 00 00 00 00 00 00000000",
        "010009 00 00 00 06 00 00000000",
        "010009 00 00 FF 01 00 00000000",
        "010009 00 00 00 05 14 00000000",
    ] {
        expect(17, &[(&[head, THREAD, QUEUES], 0)]);
    }
}

#[test]
fn values_of_a_thread() {
    for thread in [
        "020011 FE FF 00 00 FFFFFF 00000000 00 FF 00000000",
        "020011 FF FF 00 00 FFFFFF 00000000 00 FF 00000000",
        "020011 00 FE 00 00 FFFFFF 00000000 00 FF 00000000",
        "020011 00 FF 06 00 FFFFFF 00000000 00 FF 00000000",
        "020011 00 FF 00 01 FFFFFF 00000000 00 FF 00000000",
        "020011 00 FF 01 FF FFFFFF 00000000 00 FF 00000000",
        "020011 00 FF 02 FE FFFFFF 00000000 00 FF 00000000",
        "020011 00 FF 03 01 FFFFFF 00000000 00 FF 00000000",
        "020011 00 FF 04 30 FFFFFF 00000000 00 FF 00000000",
        "020011 00 FF 05 03 000000 00000000 00 FF 00000000",
        "020011 00 FF 00 00 FFFFFF 00000000 05 00 00000000",
        "020011 00 FF 00 00 FFFFFF 00000000 00 00 00000000",
        "020011 00 FF 00 00 FFFFFF 00000000 00 FF 00000001",
        "020011 00 FF 00 00 FFFFFF 00000000 01 FE 00000000",
        "020011 00 FF 00 00 FFFFFF 00000000 02 FF 00000000",
        "020011 00 FF 00 00 FFFFFF 00000000 03 FE 00000000",
        "020011 00 FF 00 00 FFFFFF 00000000 03 01 01000000",
        "020011 00 FF 00 00 FFFFFF 00000000 04 FD 00000000",
        "020011 00 FF 00 00 FFFFFF 00000000 04 FF 00000000",
    ] {
        expect(17, &[(&[HEAD, thread, QUEUES], 12)]);
    }
}

#[test]
fn values_behind_the_threads() {
    expect(
        17,
        &[
            (&[HEAD, THREAD, "030002 00 FE 040000"], 32),
            (&[HEAD, THREAD, "030000 040001 FF"], 35),
            (&[HEAD, THREAD, QUEUES, "050007 FE 00 01 00000000"], 38),
            (&[HEAD, THREAD, QUEUES, "050007 00 FF 01 00000000"], 38),
            (&[HEAD, THREAD, QUEUES, "050007 00 00 00 00000000"], 38),
            (&[HEAD, THREAD, QUEUES, "050007 00 00 03 00000000"], 38),
            (&[HEAD, THREAD, QUEUES, "060005 00 00000000 060005 30 00000000"], 46),
            // Before names that are not live, though these stand first: the runner, a ready one, a receiver.
            (&["010009 00 00 07 05 00 00000000", THREAD, "030001 09 040000", "050007 09 00 03 00000000"], 39),
        ],
    );
}

#[test]
fn names_not_live() {
    expect(
        18,
        &[
            (&["010009 00 00 01 05 00 00000000", THREAD, QUEUES], 0),
            (&["010009 00 00 00 05 00 00000000", QUEUES], 0),
            (&[HEAD, "020011 00 01 00 00 FFFFFF 00000000 00 FF 00000000", QUEUES], 12),
            (&[HEAD, "020011 00 FF 02 07 FFFFFF 00000000 00 FF 00000000", QUEUES], 12),
            (&[HEAD, "020011 00 FF 00 00 07FFFF 00000000 00 FF 00000000", QUEUES], 12),
            (&[HEAD, "020011 00 FF 00 00 FF07FF 00000000 00 FF 00000000", QUEUES], 12),
            (&[HEAD, "020011 00 FF 00 00 FEFEFD 00000000 00 FF 00000000", QUEUES], 12),
            (&[HEAD, THREAD, "020011 01 02 01 00 FFFFFF 00000000 00 FF 00000000", READY], 32),
            // A trapped thread's entry of its own kind is none, or gone.
            (&[HEAD, THREAD, "020011 01 00 05 00 FF0000 00000000 00 FF 00000000", QUEUES], 32),
            (&[HEAD, THREAD, "020011 01 00 05 01 00FE00 00000000 00 FF 00000000", QUEUES], 32),
            (&[HEAD, THREAD, "020011 01 00 05 02 0000FF 00000000 00 FF 00000000", QUEUES], 32),
            (&[HEAD, THREAD, "030002 00 01 040000"], 32),
            (&[HEAD, THREAD, "030000 040001 FD"], 35),
            (&[HEAD, THREAD, QUEUES, "050007 00 00 01 00000000 050007 01 00 01 00000000"], 48),
            (&[HEAD, THREAD, QUEUES, "050007 00 01 02 00000000"], 38),
            // The earliest field of several.
            (&[HEAD, THREAD, "030001 03 040001 FD"], 32),
            // Before other rules: a wrong status, thread 0 with a parent.
            (&["010009 01 00 00 05 00 00000000", "020011 00 00 00 00 FFFFFF 00000000 00 FF 00000000", "030000 040001 05"], 35),
        ],
    );
}

#[test]
fn other_rules() {
    let waits = "010009 01 00 FF 00 00 00000000";
    let at_device = "020011 00 FF 04 05 FFFFFF 00000000 00 FF 00000000";
    let message = "050007 00 00 01 00000000";
    expect(
        19,
        &[
            (&["010009 01 00 00 05 00 00000000", THREAD, QUEUES], 0),
            (&["010009 00 00 FF 00 00 00000000", THREAD, QUEUES], 0),
            (&[HEAD, THREAD, "030001 00 040000"], 0),
            (&[HEAD, THREAD, "030000 040001 00"], 0),
            (&[HEAD, THREAD, SECOND, QUEUES], 0),
            (&[HEAD, THREAD, SECOND, "030002 01 01 040000"], 0),
            (&[HEAD, THREAD, SECOND, SECOND, READY], 0),
            (&[HEAD, SECOND, THREAD, READY], 0),
            (&[HEAD, THREAD, "020011 01 FF 01 00 FFFFFF 00000000 00 FF 00000000", READY], 0),
            (&[HEAD, THREAD, "020011 01 01 01 00 FFFFFF 00000000 00 FF 00000000", READY], 0),
            (&[HEAD, THREAD, "020011 01 00 01 00 FF01FF 00000000 00 FF 00000000", READY], 0),
            (&[HEAD, "020011 00 00 00 00 FFFFFF 00000000 00 FF 00000000", QUEUES], 0),
            (&[HEAD, "020011 00 FF 00 00 FFFFFF 00000000 04 FE 00000000", QUEUES], 0),
            (&["010009 03 00 FF 00 00 00000000", "020011 00 FF 02 FF FFFFFF 00000000 00 FF 00000000", QUEUES, message], 0),
            (&[HEAD, THREAD, QUEUES, "050007 00 00 02 00000000"], 0),
            (&[HEAD, THREAD, SECOND, READY, "050007 01 00 01 00000000", message], 0),
            (&[waits, at_device, QUEUES, "060005 05 00000000"], 0),
            (&[waits, at_device, QUEUES, "060005 07 00000000 060005 06 00000000"], 0),
            (&[HEAD, THREAD, QUEUES, "060005 05 00000000 060005 05 00000000"], 0),
            (&[HEAD, THREAD, QUEUES, &message.repeat(21)], 0),
            (&[HEAD, THREAD, &SECOND.repeat(300), READY, &message.repeat(300)], 0),
            (&[HEAD, THREAD, "030200", &"00".repeat(512), "040000"], 0),
        ],
    );
}
