//! The event program on odd input.

mod common;
use common::*;
use nucleus::program;
use std::io::Read;

fn output(input: &[u8]) -> String {
    let mut output = Vec::new();
    program::run(input, &mut output).unwrap();
    String::from_utf8(output).unwrap()
}

#[test]
fn empty_input() {
    assert_eq!(output(&[]), "SYSTEM UP\n");
}

#[test]
fn cut_off_fields_are_answered() {
    for bytes in ["14", "1400", "140001", "11 0005 00 00", "FF FFFF 00"] {
        assert_eq!(output(&hex(bytes)), "1 2 0 0 0 255 0\nSYSTEM UP\n");
    }
}

#[test]
fn reading_goes_on_behind_the_length() {
    let input = hex("63 0003 14 00 00, 14 0001 14, 12 0002 07 00, 14");
    assert_eq!(
        output(&input),
        "1 2 0 0 0 255 0\n2 2 0 0 0 255 0\n3 0 0 0 4 254 0\n4 2 0 0 0 255 0\nSYSTEM UP\n"
    );
}

#[test]
fn after_the_end_every_field_is_refused_1() {
    let input = [request(3, 255), tick(), hex("00 0001 00"), hex("15 00")].concat();
    let expected =
        "1 0 2 255 0 255 0\n2 1 2 255 0 255 0\n3 1 2 255 0 255 0\n4 1 2 255 0 255 0\nSYSTEM HALTED\n";
    assert_eq!(output(&input), expected);
    assert_eq!(
        output(&[receive(255), tick()].concat()),
        "1 0 3 255 0 255 0\n2 1 3 255 0 255 0\nKERNEL PANIC\n"
    );
    assert_eq!(output(&request(8, 0)), "1 0 1 255 0 255 0\nSYSTEM UP\n");
}

#[test]
fn the_longest_field() {
    let input = [field(200, &vec![0x14; 65535]), tick()].concat();
    assert_eq!(output(&input), "1 2 0 0 0 255 0\n2 0 0 0 0 255 0\nSYSTEM UP\n");
}

/// A reader that gives one byte at a time.
struct Drops<'a>(&'a [u8]);

impl Read for Drops<'_> {
    fn read(&mut self, buffer: &mut [u8]) -> std::io::Result<usize> {
        match (self.0.split_first(), buffer.first_mut()) {
            (Some((&byte, rest)), Some(place)) => {
                *place = byte;
                self.0 = rest;
                Ok(1)
            }
            _ => Ok(0),
        }
    }
}

#[test]
fn short_reads_change_nothing() {
    let input = [request(2, 0), field(9, &[1; 400]), tick(), receive(255), hex("12 00")].concat();
    let mut drops = Vec::new();
    program::run(Drops(&input), &mut drops).unwrap();
    assert_eq!(String::from_utf8(drops).unwrap(), output(&input));
}
