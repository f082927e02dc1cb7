//! Built dumps and damaged ones.

use nucleus::breaks::{break_rule, RULES};
use nucleus::damage::{self, damage_by, Damage};
use nucleus::dump;
use nucleus::fault::{deciding, faults, CAUSES};
use nucleus::random::Random;
use nucleus::valid::{self, Dumps};
use nucleus::verdicts::Verdicts;
use std::collections::BTreeMap;

#[test]
fn built_tables_meet_the_rules_and_are_in_order() {
    let mut random = Random::new(3);
    let mut statuses = BTreeMap::new();
    let (mut full, mut longest) = (0, 0);
    for _ in 0..10_000 {
        let tables = valid::tables(&mut random);
        assert_eq!(tables.broken_rules(), [], "{tables:?}");
        let bytes = dump::write(&tables);
        assert_eq!(dump::load(&bytes).expect("a dump").tables(), tables);
        *statuses.entry(tables.status).or_insert(0) += 1;
        full += u32::from(tables.threads.len() == 20);
        longest = longest.max(bytes.len());
    }
    assert!(statuses.len() == 4 && statuses.values().all(|&times| times > 250), "{statuses:?}");
    assert!(full > 500 && longest > 1_000 && longest <= dump::SUFFICIENT, "{full} {longest}");
}

#[test]
fn dumps_are_dumps_and_the_same_again() {
    let (mut one, mut two) = (Dumps::new(5), Dumps::new(5));
    for _ in 0..5_000 {
        let bytes = one.next_dump();
        assert_eq!(bytes, two.next_dump());
        assert_eq!(dump::load(&bytes).expect("a dump").dump(), bytes);
    }
}

/// How often each kind of damage leaves a dump, and how often not.
fn both_ways() -> BTreeMap<Damage, (u64, u64)> {
    let mut seen = BTreeMap::new();
    let mut dumps = Dumps::new(11);
    for _ in 0..300 {
        let bytes = dumps.next_dump();
        for kind in damage::kinds() {
            let Some(damaged) = damage_by(&bytes, kind, dumps.random()) else { continue };
            assert_ne!(damaged, bytes);
            let (still, not) = seen.entry(kind).or_insert((0, 0));
            match dump::load(&damaged) {
                Ok(node) => {
                    assert_eq!(node.dump(), damaged);
                    *still += 1;
                }
                Err(_) => *not += 1,
            }
        }
    }
    seen
}

#[test]
fn damage_goes_both_ways() {
    let seen = both_ways();
    assert_eq!(seen.len(), damage::kinds().len(), "every kind finds room");
    use Damage::*;
    for (kind, (still, not)) in seen {
        match kind {
            Bit | Byte | TellingByte | Cut | CutBetween | FieldTwice | FieldManyTimes | FieldLost
            | FieldsSwapped | FieldMoved | NameChanged => {
                assert!(still > 0 && not > 20, "{kind:?} {still} {not}")
            }
            FreeNumber | OrderChanged => assert!(still > 20 && not == 0, "{kind:?} {still} {not}"),
            ByteLost | ByteAdded | BytesBehind | TagChanged | LengthChanged | ValueResized | LongQueue
            | DumpTwice | Fault(_) => assert!(still == 0 && not > 20, "{kind:?} {still} {not}"),
            FieldAdded | AnyFields | TwoNumbers(_) | TwoPlaces(_) => {
                assert!(not > 20, "{kind:?} {still} {not}")
            }
        }
    }
}

/// Every table rule is broken alone, in good order, so that no other reason to refuse the bytes stands beside it.
#[test]
fn every_rule_is_broken_alone() {
    let mut random = Random::new(17);
    for rule in RULES {
        let (mut tried, mut alone) = (0, 0);
        for _ in 0..2_000 {
            let mut tables = valid::tables(&mut random);
            if break_rule(&mut tables, rule, &mut random).is_none() {
                continue;
            }
            tried += 1;
            let bytes = dump::write(&tables);
            assert_eq!(dump::read(&bytes), Some(tables.clone()), "well-formed");
            if tables.broken_rules() == [rule] {
                assert!(dump::load(&bytes).is_err());
                alone += 1;
            }
        }
        println!("{rule:?}: {tried} times, {alone} times alone");
        assert!(alone > 300, "{rule:?}: {tried} times, {alone} times alone");
    }
}

/// Every damage for a cause is refused with its number, and most of them for that cause alone.
#[test]
fn every_cause_decides_alone() {
    let mut dumps = Dumps::new(23);
    for cause in CAUSES {
        let (mut tried, mut alone) = (0, 0);
        while tried < 200 {
            let bytes = dumps.next_dump();
            let Some(damaged) = damage_by(&bytes, Damage::Fault(cause), dumps.random()) else { continue };
            tried += 1;
            let bad = dump::load(&damaged).expect_err("no dump");
            assert_eq!(bad.refusal, cause.refusal(), "{cause:?}");
            alone += u32::from(deciding(&faults(&damaged)) == Some(cause));
        }
        assert!(alone > 120, "{cause:?}: {alone} of {tried}");
    }
}

/// What the faults say of any bytes agrees with "these rules hold and the writer gives those bytes"; and each number, each cause, each
/// pair of numbers and each number in two places comes up.
#[test]
fn faults_agree_with_the_rules_and_the_writer() {
    let mut dumps = Dumps::new(29);
    let mut verdicts = Verdicts::default();
    for _ in 0..20_000 {
        let bytes = dumps.next_dump();
        verdicts.note(&bytes);
        let (damaged, _) = damage::damage(&bytes, dumps.random());
        verdicts.note(&damaged);
        // Damage upon damage, as far as the bytes can still be read.
        if dump::read(&damaged).is_some() {
            verdicts.note(&damage::damage(&damaged, dumps.random()).0);
        }
    }
    assert!(verdicts.read > 20_000);
    assert!(verdicts.refusals().iter().all(|(_, times)| *times > 1_000), "{:?}", verdicts.refusals());
    assert!(verdicts.causes().iter().all(|(_, times)| *times > 20), "{:?}", verdicts.causes());
    assert!(verdicts.several().iter().all(|(_, times)| *times > 20), "{:?}", verdicts.several());
}
