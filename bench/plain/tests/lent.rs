//! Lent tables with damaged numbers: refusal 11 exactly where the independent program finds no tables in the dump's order, else its step.

mod common;
use common::*;
use nucleus::random::Random;
use nucleus::tables::{RawHeld, RawMessage, RawThread};
use nucleus::Node;
use plain::lent::{dump_checked, load_checked, step_checked, Held, LentThread, Message, Tables};
use plain::Answer;

fn raw_thread(t: &LentThread) -> RawThread {
    RawThread {
        name: t.name,
        parent: t.parent,
        state: t.state,
        detail: t.detail,
        managers: [t.program, t.tlb, t.sysbp],
        count: t.ticks,
        answer_kind: t.kind,
        answer_sender: t.sender,
        answer_word: t.word,
    }
}

fn raw_message(m: &Message) -> RawMessage {
    RawMessage { receiver: m.to, sender: m.from, kind: m.kind, word: m.word }
}

fn raw_held(h: &Held) -> RawHeld {
    RawHeld { device: h.device, word: h.word }
}

/// The node of these numbers. They have no status, so any that fits will do. Another order than the dump's is no node's.
fn node_of(tables: &Tables) -> Option<Node> {
    let mut raw = nucleus::Tables {
        status: 0,
        name_given_last: tables.last,
        runner: tables.runner,
        slice: tables.slice,
        ticks_since_beat: tables.since,
        beats: tables.beats,
        threads: tables.threads.row.get(..tables.threads.n)?.iter().map(raw_thread).collect(),
        ready: tables.ready.row.get(..tables.ready.n)?.to_vec(),
        clock: tables.clock.row.get(..tables.clock.n)?.to_vec(),
        messages: tables.messages.row.get(..tables.messages.n)?.iter().map(raw_message).collect(),
        held: tables.held.row.get(..tables.held.n)?.iter().map(raw_held).collect(),
    };
    (0..4).find_map(|status| {
        raw.status = status;
        Node::from_tables(&raw).filter(|node| node.tables() == raw)
    })
}

/// Every number of one byte that stands for something.
fn small_numbers(tables: &mut Tables) -> Vec<&mut u8> {
    let mut all = vec![&mut tables.last, &mut tables.runner, &mut tables.slice, &mut tables.since];
    for t in tables.threads.row.iter_mut().take(tables.threads.n) {
        let LentThread { name, parent, state, detail, program, tlb, sysbp, kind, sender, .. } = t;
        all.extend([name, parent, state, detail, program, tlb, sysbp, kind, sender]);
    }
    all.extend(tables.ready.row.iter_mut().take(tables.ready.n));
    all.extend(tables.clock.row.iter_mut().take(tables.clock.n));
    for Message { to, from, kind, .. } in tables.messages.row.iter_mut().take(tables.messages.n) {
        all.extend([to, from, kind]);
    }
    all.extend(tables.held.row.iter_mut().take(tables.held.n).map(|held| &mut held.device));
    all
}

fn spoil_number(random: &mut Random, tables: &mut Tables) {
    let mut numbers = small_numbers(tables);
    let there: Vec<u8> = numbers.iter().map(|number| **number).collect();
    let place = random.below(numbers.len() as u64) as usize;
    *numbers[place] = odd_number(random, &there);
}

fn spoil_count(random: &mut Random, tables: &mut Tables) {
    let count = match random.below(5) {
        0 => &mut tables.threads.n,
        1 => &mut tables.ready.n,
        2 => &mut tables.clock.n,
        3 => &mut tables.messages.n,
        _ => &mut tables.held.n,
    };
    *count = random.choose(&[count.wrapping_sub(1), count.wrapping_add(1), 0, 20, 21, 41, 49, usize::MAX]).unwrap_or(0);
}

/// Two neighbours in each other's place. A count may be spoilt already.
fn spoil_order(random: &mut Random, tables: &mut Tables) {
    let mut place = |n: usize| random.below(n.clamp(2, 20) as u64 - 1) as usize;
    let (t, m, h) = (place(tables.threads.n), place(tables.messages.n), place(tables.held.n));
    match random.below(3) {
        0 => tables.threads.row.swap(t, t + 1),
        1 => tables.messages.row.swap(m, m + 1),
        _ => tables.held.row.swap(h, h + 1),
    }
}

fn spoil(random: &mut Random, tables: &mut Tables) {
    match random.below(10) {
        0..=6 => spoil_number(random, tables),
        7 => {
            let word = random.below(3) as u32;
            tables.threads.row[random.below(20) as usize].word = word;
        }
        8 => spoil_count(random, tables),
        _ => spoil_order(random, tables),
    }
}

#[test]
fn damaged_tables_agree() {
    let mut random = Random::new(11);
    let (mut refused, mut stepped) = (0, 0);
    for node in nodes(60, 40) {
        let mut whole = Tables::start();
        load_checked(&mut whole, &node.dump()).expect("a dump");
        for _ in 0..200 {
            let mut tables = whole.clone();
            (0..1 + random.below(2)).for_each(|_| spoil(&mut random, &mut tables));
            let before = tables.clone();
            let decision = step_checked(&mut tables, &[20, 0, 0]);
            let Some(mut node) = node_of(&before) else {
                assert_eq!((decision.refusal, decision.status, decision.runner), (11, 255, 255), "{before:?}");
                assert_eq!(decision.answer, Answer::NONE);
                assert_eq!(tables, before);
                assert_eq!(dump_checked(&tables, &mut [0; BUFFER]), Err(11));
                refused += 1;
                continue;
            };
            assert!(same(decision, node.step(&[20, 0, 0])), "{before:?}");
            assert_eq!(dump_of_lent(&tables), node.dump());
            stepped += 1;
        }
    }
    println!("damaged tables: {refused} refused 11, {stepped} stepped");
    assert!(refused > 10_000 && stepped > 10_000, "{refused} {stepped}");
}

/// Random damage hardly ever takes the runner away and leaves all else in order, so that is done here: it goes to the tail.
#[test]
fn nobody_is_ready_without_a_runner() {
    let mut tried = 0;
    for node in nodes(40, 100) {
        let mut tables = Tables::start();
        load_checked(&mut tables, &node.dump()).expect("a dump");
        let Some(runner) = node.runner() else { continue };
        let is_runner = |thread: &&mut LentThread| thread.name == runner;
        tables.threads.row.iter_mut().find(is_runner).expect("live").state = 1;
        tables.ready.row[tables.ready.n] = runner;
        tables.ready.n += 1;
        tables.runner = 255;
        tables.slice = 0;
        assert!(node_of(&tables).is_none());
        assert!(!tables.meet_rules());
        tried += 1;
    }
    println!("{tried} runners sent to the tail");
    assert!(tried > 100, "{tried}");
}
