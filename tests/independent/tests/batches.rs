//! Batches: what is run, what is handed back, and the refusals 14 and 11.

mod common;
use common::*;
use nucleus::batch::{complete_fields, run, Batch};
use nucleus::generator::{Form, Generator};
use nucleus::random::Random;
use nucleus::{lent, Node, Tables};

const TICKED: [u32; 6] = [0, 0, 0, 0, 255, 0];
const MALFORMED: [u32; 6] = [2, 0, 0, 0, 255, 0];
const BAD_TABLES: [u32; 6] = [11, 255, 255, 0, 255, 0];

/// From a start, with as much room as one likes.
fn from_start(bytes: &[u8]) -> Batch {
    run(Some(&mut Node::start()), bytes, usize::MAX)
}

fn answered(decisions: &[[u32; 6]], read: usize) -> Batch {
    Batch { refusal: 0, numbers: decisions.concat(), read }
}

fn refused() -> Batch {
    Batch { refusal: 14, numbers: Vec::new(), read: 0 }
}

#[test]
fn the_listing_in_one_batch() {
    let input = hex(
        "12 0002 02 00, 11 0001 FF, 10 0005 00 00000007, 12 0002 07 00, 12 0002 03 FF, 10 0005 01 00000009, 12 0002 08 00,
         10 0005 00 00000001",
    );
    let expected = [
        [0, 0, 0, 4, 254, 1],
        [0, 0, 1, 0, 255, 0],
        [0, 0, 1, 0, 255, 0],
        [0, 0, 1, 4, 254, 0],
        [0, 0, 0, 1, 1, 7],
        [4, 0, 0, 0, 255, 0],
        [0, 1, 255, 0, 255, 0],
        [3, 1, 255, 0, 255, 0],
    ];
    assert_eq!(from_start(&input), answered(&expected, input.len()));
}

#[test]
fn empty_input_needs_no_room() {
    let mut node = Node::start();
    assert_eq!(run(Some(&mut node), &[], 0), answered(&[], 0));
    assert_eq!(node, Node::start());
    assert_eq!(run(None, &[], 0), answered(&[], 0));
}

#[test]
fn a_cut_field_is_not_run() {
    for cut in ["14", "1400", "140001", "11 0005 00 00", "FF FFFF 00", "12 0002 02"] {
        let cut = hex(cut);
        assert_eq!(run(Some(&mut Node::start()), &cut, 0), answered(&[], 0), "alone");
        let behind = [tick(), cut].concat();
        assert_eq!(from_start(&behind), answered(&[TICKED], 3), "behind a tick");
        assert_eq!(
            run(Some(&mut Node::start()), &behind, 6),
            answered(&[TICKED], 3),
            "no room is asked for it"
        );
    }
}

#[test]
fn malformed_fields_are_answered_and_passed_by_their_length() {
    let empty = [field(16, &[]), tick()].concat();
    assert_eq!(from_start(&empty), answered(&[MALFORMED, TICKED], 6));
    for tag in [20, 200] {
        let long = [field(tag, &vec![0x14; 65_535]), tick()].concat();
        assert_eq!(from_start(&long), answered(&[MALFORMED, TICKED], 65_541));
        assert_eq!(from_start(&long[..65_537]), answered(&[], 0), "a byte is missing");
        assert_eq!(from_start(&long[..65_538]), answered(&[MALFORMED], 65_538));
    }
}

#[test]
fn room_is_counted_before_anything_runs() {
    // A refused and a malformed field count, the cut one does not.
    let input = [request(2, 0), send(9, 4), field(99, &[1]), tick(), vec![0x14, 0]].concat();
    let decisions = [[0, 0, 0, 4, 254, 1], [4, 0, 0, 0, 255, 0], MALFORMED, TICKED];
    let mut node = Node::start();
    for room in 0..24 {
        assert_eq!(run(Some(&mut node), &input, room), refused(), "{room}");
        assert_eq!(node, Node::start());
    }
    for room in 24..30 {
        let mut node = Node::start();
        assert_eq!(run(Some(&mut node), &input, room), answered(&decisions, input.len() - 2));
        assert_eq!((node.threads().len(), node.slice()), (2, 4));
    }
}

#[test]
fn refused_events_do_not_end_a_batch() {
    let input = [send(7, 1), request(3, 255), tick(), field(0, &[])].concat();
    let stopped = [1, 2, 255, 0, 255, 0];
    let decisions = [[4, 0, 0, 0, 255, 0], [0, 2, 255, 0, 255, 0], stopped, stopped];
    assert_eq!(from_start(&input), answered(&decisions, input.len()));
}

#[test]
fn bad_tables_answer_each_field() {
    let input = [tick(), field(99, &[1]), request(2, 0), vec![0x10]].concat();
    let mut tables = Node::start().tables();
    tables.slice = 0;
    let before = tables.clone();
    assert_eq!(lent::batch(&mut tables, &input, 17), refused(), "14 comes before 11");
    assert_eq!(lent::batch(&mut tables, &input, 18), answered(&[BAD_TABLES; 3], input.len() - 1));
    assert_eq!(tables, before);
}

#[test]
fn lent_tables_are_updated_by_what_is_accepted() {
    let mut tables = Node::start().tables();
    lent::batch(&mut tables, &[send(7, 1), field(20, &[0])].concat(), 12);
    assert_eq!(tables, Node::start().tables());
    lent::batch(&mut tables, &[tick(), send(7, 1), tick()].concat(), 17);
    assert_eq!(tables, Node::start().tables());
    lent::batch(&mut tables, &[tick(), send(7, 1), tick()].concat(), 18);
    assert_eq!((tables.slice, tables.ticks_since_beat), (3, 2));
}

/// By single calls, each with one complete field.
fn singly(tables: &mut Tables, bytes: &[u8]) -> Vec<u32> {
    let fields = complete_fields(bytes).into_iter();
    fields.flat_map(|field| nucleus::batch::numbers(lent::step(tables, field))).collect()
}

#[test]
fn batches_of_pieces_equal_single_calls() {
    let mut random = Random::new(3);
    for seed in 0..60 {
        let mut generator = Generator::new(seed, 20 + seed * 3, Form::Stream);
        let file: Vec<u8> =
            std::iter::from_fn(|| generator.next_event()).flat_map(|(event, _)| event).collect();
        let mut alone = Node::start().tables();
        let decisions = singly(&mut alone, &file);
        let (mut tables, mut numbers, mut unread) = (Node::start().tables(), Vec::new(), Vec::new());
        let mut rest = &file[..];
        while !rest.is_empty() {
            let (piece, behind) = rest.split_at(1 + random.below(rest.len().min(90) as u64) as usize);
            unread.extend(piece);
            let batch = lent::batch(&mut tables, &unread, unread.len() * 2);
            assert_eq!(batch.refusal, 0);
            numbers.extend(batch.numbers);
            unread.drain(..batch.read);
            rest = behind;
        }
        assert_eq!((numbers, &tables), (decisions, &alone), "seed {seed}");
        assert!(file.ends_with(&unread) && complete_fields(&unread).is_empty());
    }
}
