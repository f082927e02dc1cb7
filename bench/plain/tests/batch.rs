//! Batches: decision by decision what the independent program gives for the same events, however they are cut into batches.

mod common;
use common::*;
use nucleus::generator::{Form, Generator};
use nucleus::random::Random;
use plain::batch::DECISION;
use plain::lent::{batch_checked, Tables};
use plain::Plain;

/// No decision has it.
const STAYS: u32 = 0xA5A5_A5A5;

const TICK: [u8; 3] = [20, 0, 0];

/// The bytes of a generated run, where each of its fields ends, the numbers of its decisions, and the dump behind them. A field that is cut
/// off at the end is left out.
struct Generated {
    bytes: Vec<u8>,
    ends: Vec<usize>,
    numbers: Vec<u32>,
    dump: Vec<u8>,
}

fn generated(seed: u64) -> Generated {
    let mut generator = Generator::new(seed, 2_000, Form::Stream);
    let mut made = Generated { bytes: Vec::new(), ends: Vec::new(), numbers: Vec::new(), dump: Vec::new() };
    loop {
        made.dump = generator.node().dump();
        let Some((field, expected)) = generator.next_event() else { return made };
        if !matches!(field[..], [_, high, low, ref value @ ..] if value.len() == usize::from(u16::from_be_bytes([high, low]))) {
            return made;
        }
        let nucleus::Decision { refusal, status, runner, kind, sender, word } = expected;
        made.numbers.extend([refusal, status, runner, kind, sender].map(u32::from));
        made.numbers.push(word);
        made.bytes.extend(field);
        made.ends.push(made.bytes.len());
    }
}

/// On rows that are kept, on rows that are checked, and on lent tables.
struct All {
    kept: Plain,
    checked: Plain,
    lent: Tables,
}

impl All {
    fn start() -> All {
        All { kept: Plain::start(), checked: Plain::start(), lent: Tables::start() }
    }

    /// One batch by each of them into a buffer of so many numbers: what all write, and the unread end or the refusal.
    fn batch<'a>(&mut self, events: &'a [u8], room: usize) -> (Vec<u32>, Result<&'a [u8], u8>) {
        let mut out = [vec![STAYS; room], vec![STAYS; room], vec![STAYS; room]];
        let said = [
            self.kept.batch(events, &mut out[0]),
            self.checked.batch_checked(events, &mut out[1]),
            batch_checked(&mut self.lent, events, &mut out[2]),
        ];
        assert!(said[0] == said[1] && said[0] == said[2], "{said:?}");
        assert!(out[0] == out[1] && out[0] == out[2], "{out:?}");
        let [numbers, ..] = out;
        (numbers, said[0])
    }

    fn dump(&self) -> Vec<u8> {
        let dump = dump_of(&self.kept);
        assert_eq!(dump_of(&self.checked), dump);
        assert_eq!(dump_of_lent(&self.lent), dump);
        dump
    }
}

#[test]
fn batches_of_each_size_agree() {
    for seed in 0..40 {
        let run = generated(seed);
        for size in [1, 2, 10, 100, run.ends.len()] {
            let mut all = All::start();
            let (mut from, mut numbers) = (0, Vec::new());
            for ends in run.ends.chunks(size) {
                let end = ends[ends.len() - 1];
                let (out, said) = all.batch(&run.bytes[from..end], DECISION * ends.len());
                assert_eq!(said, Ok(&[][..]));
                numbers.extend(out);
                from = end;
            }
            assert_eq!(numbers, run.numbers, "seed {seed}, batches of {size}");
            assert_eq!(all.dump(), run.dump, "seed {seed}, batches of {size}");
        }
    }
}

/// As a board gathers them: bytes come in pieces of any length, and the unread end is handed over again with the next ones.
#[test]
fn cut_fields_wait_for_their_rest() {
    let mut random = Random::new(23);
    let mut cuts = 0;
    for seed in 0..40 {
        let run = generated(seed);
        let mut all = All::start();
        let (mut from, mut to, mut numbers) = (0, 0, Vec::new());
        while from < run.bytes.len() {
            to = run.bytes.len().min(to + random.below(60) as usize);
            let events = &run.bytes[from..to];
            let complete = run.ends.iter().filter(|&&end| from < end && end <= to).count();
            let read = run.ends.iter().rfind(|&&end| end <= to).map_or(0, |end| end.saturating_sub(from));
            let (out, said) = all.batch(events, DECISION * complete + 3);
            assert_eq!(said.map(|rest| rest.as_ptr_range()), Ok(events[read..].as_ptr_range()));
            assert_eq!(out[DECISION * complete..], [STAYS; 3]);
            numbers.extend_from_slice(&out[..DECISION * complete]);
            cuts += u64::from(read < events.len());
            from += read;
        }
        assert_eq!(numbers, run.numbers, "seed {seed}");
        assert_eq!(all.dump(), run.dump, "seed {seed}");
    }
    println!("{cuts} fields were cut");
    assert!(cuts > 1_000, "{cuts}");
}

/// One number too few for the complete fields: nothing is run and nothing written, whatever the tables are.
#[test]
fn a_short_buffer_is_refused() {
    for seed in 0..40 {
        let run = generated(seed);
        let mut all = All::start();
        let before = all.dump();
        for count in [1, 2, 10, 100] {
            let events = &run.bytes[..run.ends[count - 1]];
            let (out, said) = all.batch(events, DECISION * count - 1);
            assert_eq!(said, Err(14));
            assert_eq!(out, vec![STAYS; DECISION * count - 1]);
            assert_eq!(all.dump(), before);
        }
    }
    let mut broken = Tables::start();
    broken.slice = 0;
    assert_eq!(batch_checked(&mut broken, &TICK, &mut [0; 5]), Err(14));
}

/// No events, or one that is cut: no room is needed.
#[test]
fn nothing_complete_is_nothing_run() {
    for events in [&[][..], &[20], &[20, 0], &[16, 0, 5, 0, 0, 0, 0], &[0, 255, 255]] {
        let mut all = All::start();
        let before = all.dump();
        let (_, said) = all.batch(events, 0);
        assert_eq!(said, Ok(events));
        assert_eq!(all.dump(), before);
    }
}

/// Each field gets 11, a malformed one too, and the tables stay.
#[test]
fn broken_tables_are_refused() {
    let breaks: [fn(&mut Tables); 6] = [
        |tables| tables.slice = 6,
        |tables| tables.threads.n = 21,
        |tables| tables.threads.row[0].state = 6,
        |tables| tables.threads.row[0].parent = 0,
        |tables| tables.ready.n = 1,
        |tables| (tables.held.n, tables.held.row[0].device) = (1, 48),
    ];
    for break_it in breaks {
        let mut tables = Tables::start();
        break_it(&mut tables);
        let before = tables.clone();
        let mut out = [STAYS; 2 * DECISION + 1];
        let events = [&TICK[..], &[99, 0, 1, 5], &[20, 0]].concat();
        assert_eq!(batch_checked(&mut tables, &events, &mut out), Ok(&[20, 0][..]));
        assert_eq!(out, [11, 255, 255, 0, 255, 0, 11, 255, 255, 0, 255, 0, STAYS]);
        assert_eq!(tables, before);
    }
}
