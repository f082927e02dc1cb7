//! Bytes that were read as dumps, and what they were refused for, counted.

use crate::dump::load;
use crate::fault::{deciding, faults, Cause, Fault, CAUSES};
use crate::numbers::{Refusal, OF_BYTES};
use crate::spoil::{TWO_NUMBERS, TWO_PLACES};
use std::collections::{BTreeMap, BTreeSet};

#[derive(Clone, Debug, Default)]
pub struct Verdicts {
    /// How often the bytes were a dump.
    pub read: u64,
    refused: BTreeMap<Refusal, u64>,
    /// By the cause on which the answer rests alone.
    decided: BTreeMap<Cause, u64>,
    /// Refused with the first number while there were faults of the second one too.
    two_numbers: BTreeMap<[Refusal; 2], u64>,
    /// Refused with the number while it had faults in more than one place.
    two_places: BTreeMap<Refusal, u64>,
}

impl Verdicts {
    pub fn note(&mut self, bytes: &[u8]) {
        let faults = faults(bytes);
        assert_eq!(faults.is_empty(), load(bytes).is_ok(), "a dump has no fault: {bytes:02X?}");
        let Some(first) = faults.first().map(|fault| fault.bad()) else {
            self.read += 1;
            return;
        };
        *self.refused.entry(first.refusal).or_default() += 1;
        if let Some(cause) = deciding(&faults) {
            *self.decided.entry(cause).or_default() += 1;
        }
        let numbers: BTreeSet<Refusal> = faults.iter().map(|fault| fault.cause.refusal()).collect();
        for &other in numbers.iter().skip(1) {
            *self.two_numbers.entry([first.refusal, other]).or_default() += 1;
        }
        let elsewhere =
            |fault: &Fault| fault.cause.refusal() == first.refusal && fault.offset != first.offset;
        if faults.iter().any(elsewhere) {
            *self.two_places.entry(first.refusal).or_default() += 1;
        }
    }

    /// How often these bytes were a dump or not.
    pub fn total(&self) -> u64 {
        self.read + self.refused.values().sum::<u64>()
    }

    /// Each number that bytes can be refused with, and how often.
    pub fn refusals(&self) -> Vec<(u8, u64)> {
        let times = |number| self.refused.get(&number).copied().unwrap_or(0);
        OF_BYTES.into_iter().map(|number| (number.number(), times(number))).collect()
    }

    /// Each cause, and how often the answer rested on it alone.
    pub fn causes(&self) -> Vec<(Cause, u64)> {
        CAUSES.into_iter().map(|cause| (cause, self.decided.get(&cause).copied().unwrap_or(0))).collect()
    }

    /// Each pair of numbers with faults in the same bytes, and each number with faults in two places.
    pub fn several(&self) -> Vec<(String, u64)> {
        let two_numbers = TWO_NUMBERS.into_iter().map(|numbers| {
            let [first, second] = numbers.map(Refusal::number);
            (format!("{first} before {second}"), self.two_numbers.get(&numbers).copied().unwrap_or(0))
        });
        let two_places = TWO_PLACES.into_iter().map(|number| {
            let times = self.two_places.get(&number).copied().unwrap_or(0);
            (format!("{} in two places", number.number()), times)
        });
        two_numbers.chain(two_places).collect()
    }

    pub fn print_causes(&self) {
        for (cause, times) in self.causes() {
            println!("{times:9}  {} by {cause:?} alone", cause.refusal().number());
        }
        for (what, times) in self.several() {
            println!("{times:9}  {what}");
        }
    }
}
