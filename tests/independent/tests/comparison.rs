//! The comparison: programs that are right do not differ, every slip is found and its input made short.

mod common;
use common::*;
use nucleus::census::Census;
use nucleus::compare::check::{self, Program};
use nucleus::compare::names::{renamed, replayed};
use nucleus::compare::plan::{batch, BATCHES};
use nucleus::compare::shrink::Shrinker;
use nucleus::compare::source::Source;
use nucleus::compare::subject::{Said, Subject};
use nucleus::fault::CAUSES;
use nucleus::program::fields_of;
use nucleus::slips::{self, IN_INSPECT, IN_LINES, IN_SNAPSHOT, IN_STEP};
use std::io::Read;
use std::time::{Duration, Instant};

fn subject(words: &[&str], seconds: u64) -> Subject {
    Subject { words: words.iter().map(|word| word.into()).collect(), patience: Duration::from_secs(seconds) }
}

fn broken(program: &str, slip: &str) -> Subject {
    subject(&[env!("CARGO_BIN_EXE_broken"), program, slip], 1)
}

fn mixed(seed: u64, events: u64) -> Source {
    Source::Mixed { seed, events }
}

fn file(source: Source) -> Vec<u8> {
    source.pieces().flatten().collect()
}

// ---- the programs as processes ----

#[test]
fn right_programs_do_not_differ() {
    let node = subject(&[env!("CARGO_BIN_EXE_node")], 60);
    let snapshot = subject(&[env!("CARGO_BIN_EXE_snapshot")], 60);
    let inspect = subject(&[env!("CARGO_BIN_EXE_inspect")], 60);
    let mut census = Census::default();
    let sources = (1..=16).map(|seed| Source::Rubbish { seed });
    for source in sources.chain([mixed(1, 0), mixed(2, 1), mixed(3, 20_000)]) {
        assert_eq!(check::lines(&node, source, &mut census).unwrap(), None, "{source}");
        assert_eq!(check::whole(Program::Node, &node, &file(source)).unwrap(), None, "{source}");
        assert_eq!(check::whole(Program::Snapshot, &snapshot, &file(source)).unwrap(), None, "{source}");
    }
    assert!(census.events > 20_000);
    for (bytes, kind) in batch(1) {
        assert_eq!(check::whole(Program::Inspect, &inspect, &bytes).unwrap(), None, "{kind}");
    }
}

#[test]
fn slips_in_lines_are_found() {
    let source = (1..).map(|seed| mixed(seed, 60)).find(|&source| cut_off(&file(source))).unwrap();
    for slip in IN_LINES {
        let node = broken("node", slip);
        let found = check::lines(&node, source, &mut Census::default()).unwrap().expect(slip);
        let whole = check::whole(Program::Node, &node, &file(source)).unwrap().expect(slip);
        assert_eq!(found.fields, whole.fields, "{slip}");
        assert_eq!(
            (found.is_silent, whole.is_silent),
            (slip.starts_with("hangs"), slip.starts_with("hangs"))
        );
        println!("{slip}: {}", found.what);
    }
}

fn cut_off(file: &[u8]) -> bool {
    fields_of(file).last().is_some_and(|field| nucleus::event::first_field(field).is_none())
}

#[test]
fn slips_of_snapshot_are_found() {
    for slip in IN_SNAPSHOT {
        let snapshot = broken("snapshot", slip);
        let differs = |seed: u64| {
            check::whole(Program::Snapshot, &snapshot, &file(mixed(seed, seed * 60))).unwrap().is_some()
        };
        assert!((1..=60).any(differs), "{slip}");
    }
}

#[test]
fn a_program_that_cannot_be_run_or_says_nothing() {
    assert!(subject(&["/no/such/program"], 1).answer(&[]).is_err());
    let mut silent = subject(&["sleep", "60"], 1).start(std::iter::empty()).unwrap();
    assert_eq!(silent.next_line(), Said::Silence);
    let found = check::whole(Program::Node, &subject(&["false"], 1), &tick()).unwrap().unwrap();
    assert!(
        found.what.contains("wanted '1 0 0 0 0 255 0', said '(nothing)'; the program ends with"),
        "{}",
        found.what
    );
}

/// A program that does not read its input to the end, while there is more of it than a pipe holds.
#[test]
fn input_that_is_not_read_blocks_nobody() {
    let (said, end) = subject(&["true"], 10).answer(&vec![0; 1 << 20]).unwrap();
    assert_eq!((said, end), (Vec::new(), Ok(())));
}

#[test]
fn pieces_are_read_in_full() {
    for source in [mixed(5, 300), Source::Rubbish { seed: 8 }] {
        let mut bytes = Vec::new();
        source.reader().read_to_end(&mut bytes).unwrap();
        assert_eq!(bytes, file(source));
    }
}

// ---- slips in the step, within this process ----

fn said_by(slip: &str, input: &[u8]) -> Vec<u8> {
    let mut said = Vec::new();
    assert!(slips::node(slip, input, &mut said).unwrap());
    said
}

/// The number of fields up to the first line that differs.
fn differs(slip: &str, fields: &[Vec<u8>]) -> Option<usize> {
    let input = fields.concat();
    let wanted = Program::Node.wanted(&input).unwrap();
    let said = said_by(slip, &input);
    let same = wanted.iter().zip(&said).take_while(|(one, other)| one == other).count();
    let lines = wanted[..same].iter().filter(|&&byte| byte == b'\n').count();
    (wanted != said).then(|| fields.len().min(lines + 1))
}

/// The fields of a file in which a slip is sought.
const LONG: usize = 5_000;

/// The most fields that the shortest file of each slip may have.
fn bound(slip: &str) -> usize {
    match slip {
        "counts ticks in a byte" => 257,
        "goes round after name 254" | "stops behind name 253" => LONG,
        "counts notices among the 20" | "refuses 6 before 7" | "refuses 5 before 9" => 40,
        _ => 26,
    }
}

#[test]
fn slips_in_the_step_are_found_and_made_short() {
    for (slip, _) in IN_STEP {
        let of_seed = |seed| fields_of(&file(mixed(seed, LONG as u64)));
        let shown = |fields: Vec<Vec<u8>>| differs(slip, &fields).map(|needed| fields[..needed].to_vec());
        let start = (1..=8).filter_map(|seed| shown(of_seed(seed))).min_by_key(Vec::len).expect(slip);
        let mut still = |fields: &[Vec<u8>]| differs(slip, fields);
        // Where the names have to go round files stay long, and every try is slow.
        let seconds = if bound(slip) == LONG { 3 } else { 120 };
        let until = Instant::now() + Duration::from_secs(seconds);
        let mut shrinker = Shrinker::new(start.clone(), true, &mut still, until);
        let shortest = shrinker.shortest();
        println!("{slip}: from {} fields to {} in {} tries", start.len(), shortest.len(), shrinker.tries);
        assert!(differs(slip, &shortest).is_some(), "{slip}");
        assert!(shortest.len() <= bound(slip), "{slip}: {} fields", shortest.len());
    }
}

// ---- slips of inspect ----

fn inspected(slip: &str, bytes: &[u8]) -> String {
    let mut said = Vec::new();
    assert!(slips::inspect(slip, bytes, &mut said).unwrap());
    String::from_utf8(said).unwrap()
}

/// The batches of the fixed run find an inspect that forgets any one cause, or counts or places faults otherwise.
#[test]
fn slips_of_inspect_are_found_by_the_fixed_run() {
    let dumps: Vec<Vec<u8>> = BATCHES.flat_map(batch).map(|(bytes, _)| bytes).collect();
    let wanted: Vec<String> = dumps.iter().map(|dump| nucleus::dump::inspect(dump)).collect();
    let causes = CAUSES.map(|cause| format!("{cause:?}"));
    for slip in causes.iter().map(String::as_str).chain(IN_INSPECT) {
        let found =
            dumps.iter().zip(&wanted).filter(|(dump, wanted)| inspected(slip, dump) != **wanted).count();
        println!("{slip}: {found} of {} dumps", dumps.len());
        assert!(found >= 5, "{slip}: {found}");
    }
}

// ---- making inputs short ----

fn shortest(fields: Vec<Vec<u8>>, mut differs: impl FnMut(&[Vec<u8>]) -> Option<usize>) -> Vec<Vec<u8>> {
    Shrinker::new(fields, true, &mut differs, Instant::now() + Duration::from_secs(20)).shortest()
}

#[test]
fn what_does_not_matter_is_left_out() {
    let fields = fields_of(&file(mixed(4, 400)));
    let ticks = |fields: &[Vec<u8>]| fields.iter().filter(|field| **field == tick()).count();
    let three_ticks = |fields: &[Vec<u8>]| (ticks(fields) >= 3).then_some(fields.len());
    assert_eq!(shortest(fields, three_ticks), vec![tick(); 3]);
    // An empty file can show a difference too, and cannot be shorter.
    assert_eq!(shortest(Vec::new(), |_| Some(0)), Vec::<Vec<u8>>::new());
}

#[test]
fn values_become_small() {
    let fields = vec![send(9, 77), field(200, &[7; 40]), request(9, 40), send(3, 1_000_000)];
    let has = |fields: &[Vec<u8>]| {
        let word_over = |field: &Vec<u8>| field[0] == 0x10 && field[4..] > [0, 0, 2, 4][..];
        (fields.iter().any(word_over) && fields.iter().any(|field| field[0] == 200)).then_some(fields.len())
    };
    assert_eq!(
        shortest(fields, has),
        [send(0, 0x205), field(200, &[])].map(|field| field).to_vec().into_iter().rev().collect::<Vec<_>>()
    );
}

/// Two sons are made and the second is sent to; without the first it has another name.
#[test]
fn names_follow_their_threads() {
    let fields = [request(2, 0), request(2, 0), send(2, 7), receive(1)];
    assert_eq!(renamed(&fields, 0..1), [request(2, 0), send(1, 7), receive(1)]);
    assert_eq!(renamed(&fields, 0..0), fields);
}

/// The son sets its manager: it has to run, and nothing else is needed for that than five ticks.
#[test]
fn events_are_done_by_the_same_threads() {
    let ticks = vec![tick(); 5];
    let sets = [request(4, 0), trap(0, 1)];
    let head = [request(2, 0), request(7, 0)];
    let fields = [&head[..], &ticks, &vec![tick(); 40], &sets].concat();
    assert_eq!(replayed(&fields, 1..2), [&head[..1], &ticks, &sets].concat());
    // Without the son there is nobody to set a manager; the last event stays.
    assert_eq!(replayed(&fields, 0..1), [request(7, 0), trap(0, 1)]);
}

// ---- in print ----

#[test]
fn fields_in_hex() {
    use nucleus::hex::field;
    assert_eq!(field(&request(2, 0)), "12 0002 02 00");
    assert_eq!(field(&send(0, 7)), "10 0005 00 00000007");
    assert_eq!(field(&tick()), "14 0000");
    assert_eq!(field(&interrupt(1 << 47, 9)), "15 000C 0000800000000000 00000009");
    assert_eq!(field(&hex("06 0005 03 00000001")), "06 0005 03 00000001");
    assert_eq!(field(&hex("10 0003 01 02 03")), "10 0003 01 02 03");
    assert_eq!(field(&hex("10 0005 01")), "10 0005 01");
    assert_eq!(field(&hex("10 00")), "1000");
}
