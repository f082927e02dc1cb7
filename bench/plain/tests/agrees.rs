//! Decision by decision and dump by dump the same as the independent program, over generated events.

mod common;
use common::*;
use nucleus::generator::{Form, Generator};
use plain::lent::{step_checked, Tables};
use plain::{load, Plain};

const SEEDS: u64 = 200;
const EVENTS: u64 = 5_000;

/// One run, on kept rows and on lent tables. Gives how often each refusal came.
fn run(seed: u64, form: Form) -> [u64; 16] {
    let mut generator = Generator::new(seed, EVENTS, form);
    let (mut plain, mut tables) = (Plain::start(), Tables::start());
    let mut refusals = [0; 16];
    while let Some((field, expected)) = generator.next_event() {
        let number = refusals.iter().sum::<u64>() + 1;
        let decision = plain.step(&field);
        assert!(same(decision, expected), "seed {seed}, event {number}: {decision:?}, and not {expected}");
        assert_eq!(step_checked(&mut tables, &field), decision, "seed {seed}, event {number}, lent");
        let dump = generator.node().dump();
        assert_eq!(dump_of(&plain), dump, "seed {seed}, event {number}");
        assert_eq!(dump_of_lent(&tables), dump, "seed {seed}, event {number}, lent");
        refusals[usize::from(decision.refusal)] += 1;
    }
    assert_eq!(refusals.iter().sum::<u64>(), EVENTS);
    refusals
}

fn runs(form: Form) {
    let mut refusals = [0; 16];
    for seed in 0..SEEDS {
        refusals.iter_mut().zip(run(seed, form)).for_each(|(sum, times)| *sum += times);
    }
    println!("{SEEDS} runs of {EVENTS} events; refusals 0 to 10: {:?}", &refusals[..11]);
    assert!(refusals[..11].iter().all(|&times| times > 0), "{refusals:?}");
}

/// The bytes that `generate SEED COUNT` writes.
#[test]
fn streams_agree() {
    runs(Form::Stream);
}

/// With fields that are cut and bytes behind fields.
#[test]
fn single_events_agree() {
    runs(Form::Single);
}

/// No generated run is long enough for a count to pass 2^32, so dumps are set just before it.
#[test]
fn counts_go_round() {
    let mut went_round = 0;
    for node in nodes(40, 100) {
        let mut dump = node.dump();
        dump[7] = 19;
        dump[8..12].fill(255);
        let mut at = 12;
        while dump[at] == 2 {
            dump[at + 10..at + 14].fill(255);
            at += 20;
        }
        let (Ok(mut plain), Ok(mut node)) = (load(&dump), nucleus::load(&dump)) else { panic!("no dump") };
        let tick = [20, 0, 0];
        assert!(same(plain.step(&tick), node.step(&tick)));
        assert_eq!(dump_of(&plain), node.dump());
        went_round += u64::from(node.dump()[8..12] == [0; 4]);
    }
    println!("{went_round} beats and counts went round");
    assert!(went_round > 100, "{went_round}");
}
