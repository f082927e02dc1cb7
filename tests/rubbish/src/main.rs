//! rubbish [--tables N] [--seed S]: lends N tables of all kinds, most of them spoilt, to the entries of the board's library. What they
//! answer, and every byte that they leave, is held to the independent program. The last line is 'N passed, M failed'; a case is the sizes,
//! a kind of tables, or that everything came up which is to come up.
//!
//! Most are whole tables with each bit of the room flipped in turn. A flip in a word that counts is refused with 11 or stands for other
//! tables; any other flip changes no answer and no dump, then or later: what is demanded behind it rests on the tables alone.

use nucleus::random::Random;
use nucleus::Node;
use rubbish::judge::{self, Ground};
use rubbish::kinds::{Kind, Maker, BITS, KINDS};
use rubbish::lent::{self, Report, Room, Sizes, LONGEST, SIZE};
use rubbish::tally::{self, Counted, Tally, FIXED};
use rubbish::trial::{self, Plan};
use std::mem::size_of;
use std::process::ExitCode;

/// So many tables that were answered otherwise are printed, each with so many of its differences.
const SHOWN: u64 = 5;
const WORDS: usize = 4;

/// Events on each lent room; and on one with rubbish where a word says nothing, as hints do.
const EVENTS: u64 = 4;
const MANY_EVENTS: u64 = 40;
/// Of the rooms with one bit flipped only one in so many is handed also to the calls that look at no tables.
const EVERY_CALL: u64 = 16;

/// Tables and seed.
fn arguments() -> Option<(u64, u64)> {
    let (mut tables, mut seed) = (FIXED, 1);
    let mut words = std::env::args().skip(1);
    while let Some(word) = words.next() {
        let number = words.next()?.parse().ok()?;
        match word.as_str() {
            "--tables" => tables = number,
            "--seed" => seed = number,
            _ => return None,
        }
    }
    Some((tables, seed))
}

/// Five in six are whole tables with each bit in turn. The other kinds share the rest.
fn share(kind: Kind, tables: u64) -> u64 {
    let whole = tables * 5 / 6 / BITS * BITS;
    let others = KINDS.len() as u64 - 1;
    match kind {
        Kind::EveryBit => whole,
        Kind::Silent => (tables - whole) - (tables - whole) / others * (others - 1),
        _ => (tables - whole) / others,
    }
}

struct Run {
    maker: Maker,
    random: Random,
    tally: Tally,
    shown: u64,
}

impl Run {
    fn kind(&mut self, kind: Kind, tables: u64) -> Counted {
        let mut counted = Counted::default();
        for number in 0..tables {
            let room = self.maker.room(kind, number);
            let every_call = kind != Kind::EveryBit || number % EVERY_CALL == 0;
            let plan = Plan {
                events: if kind == Kind::Silent { MANY_EVENTS } else { EVENTS },
                dump: every_call.then(|| self.maker.dump(number)),
            };
            let (verdict, mut wrong) = trial::try_room(&room, plan, &mut self.random, &mut self.tally);
            wrong.extend(self.unlike_its_kind(kind, number, &verdict));
            counted.tables += 1;
            counted.stand += u64::from(verdict.is_ok());
            counted.failed += u64::from(!wrong.is_empty());
            if !wrong.is_empty() {
                self.show(kind, number, &room, &wrong);
            }
        }
        counted
    }

    /// Of some kinds it is known what they stand for.
    fn unlike_its_kind(&mut self, kind: Kind, number: u64, verdict: &Result<Node, Ground>) -> Option<String> {
        let is_like_it = match kind {
            Kind::EveryBit => self.flipped((number % BITS / 32) as usize, verdict),
            Kind::Silent => verdict.is_ok(),
            Kind::Limits => *verdict == Err(Ground::Limits),
            _ => true,
        };
        (!is_like_it).then(|| "by its kind it should stand for something else".to_string())
    }

    /// A bit of the word at this place was flipped: a word that counts does not say the same then, and any other changes nothing.
    fn flipped(&mut self, place: usize, verdict: &Result<Node, Ground>) -> bool {
        let (whole, bits) = (&self.maker.whole, &mut self.tally.bits);
        match (whole.counts[place], verdict) {
            (true, Err(_)) => bits.found += 1,
            (true, Ok(_)) => bits.other += 1,
            (false, _) => bits.silent += 1,
        }
        let same = verdict.as_ref().is_ok_and(|node| node.dump() == whole.dump);
        same != whole.counts[place]
    }

    fn show(&mut self, kind: Kind, number: u64, room: &Room, wrong: &[String]) {
        self.shown += 1;
        if self.shown > SHOWN {
            return;
        }
        println!("FAILED  {kind}, table {number}; lent: {:X?}", room.words);
        println!("        by the independent program: {}", verdict(room));
        for what in wrong.iter().take(WORDS) {
            println!("        {what}");
        }
    }
}

fn verdict(room: &Room) -> String {
    judge::judge(&room.read()).map_or_else(|ground| ground.to_string(), |_| "they stand".to_string())
}

/// What the library says of the layout.
fn sizes_agree() -> bool {
    let sizes = Sizes { tables: SIZE as u32, report: size_of::<Report>() as u32, dump: LONGEST as u32 };
    lent::sizes() == sizes
}

fn main() -> ExitCode {
    let Some((tables, seed)) = arguments() else {
        eprintln!("usage: rubbish [--tables N] [--seed S]");
        return ExitCode::FAILURE;
    };
    if !sizes_agree() {
        println!("FAILED  sizes: the tables here have {SIZE} bytes, the library says {:?}", lent::sizes());
        println!("0 passed, 1 failed");
        return ExitCode::FAILURE;
    }
    let mut run = Run { maker: Maker::new(seed), random: Random::new(!seed), tally: Tally::default(), shown: 0 };
    let (mut lent, mut passed, mut failed) = (0, 1, 0);
    tally::print_head();
    for kind in KINDS {
        let counted = run.kind(kind, share(kind, tables));
        counted.print(kind);
        lent += counted.tables;
        *(if counted.failed == 0 { &mut passed } else { &mut failed }) += 1;
    }
    run.tally.print();
    if tables >= FIXED {
        let missing = run.tally.missing();
        missing.iter().for_each(|what| println!("FAILED  hardly ever came up: {what}"));
        *(if missing.is_empty() { &mut passed } else { &mut failed }) += 1;
    }
    println!("{lent} tables");
    println!("{passed} passed, {failed} failed");
    ExitCode::from(u8::from(failed > 0 || lent == 0))
}
