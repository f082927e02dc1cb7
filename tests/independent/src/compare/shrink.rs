//! The shortest input that still shows a difference.
//!
//! Each step leaves something out or makes a number smaller, and stays if the program under test still differs. What is left when no step
//! stays is short, but shorter ones that look otherwise may exist. Starting a program takes time, so there is a limit of time too.

use super::names;
use crate::event::{bytes, first_field};
use crate::numbers::{FIRST, NOBODY};
use std::collections::BTreeSet;
use std::ops::Range;
use std::time::Instant;

/// Says how many fields of the input show a difference, if there is one.
pub type Differs<'a> = dyn FnMut(&[Vec<u8>]) -> Option<usize> + 'a;

/// What takes many tries is done with no more fields than this.
const SHORT: usize = 160;

pub struct Shrinker<'a> {
    fields: Vec<Vec<u8>>,
    /// Are the fields events, so that leaving one out may give threads other names?
    names_threads: bool,
    differs: &'a mut Differs<'a>,
    until: Instant,
    pub tries: u64,
}

impl<'a> Shrinker<'a> {
    pub fn new(
        fields: Vec<Vec<u8>>,
        names_threads: bool,
        differs: &'a mut Differs<'a>,
        until: Instant,
    ) -> Shrinker<'a> {
        Shrinker { fields, names_threads, differs, until, tries: 0 }
    }

    /// The fields of the shortest input found.
    pub fn shortest(&mut self) -> Vec<Vec<u8>> {
        while !self.fields.is_empty() {
            let before = self.fields.clone();
            self.drop_run(0..0);
            self.drop_tags();
            self.drop_runs();
            self.drop_waits();
            if self.fields.len() == before.len() {
                self.replace_rows();
                self.drop_pairs();
                self.make_values_small();
            }
            if self.fields == before || self.is_late() {
                break;
            }
        }
        self.fields.clone()
    }

    pub fn is_late(&self) -> bool {
        Instant::now() >= self.until
    }

    /// Stay with the candidate if it is smaller and still differs.
    fn take(&mut self, candidate: Vec<Vec<u8>>) -> bool {
        if self.is_late() || candidate.is_empty() || !is_smaller(&candidate, &self.fields) {
            return false;
        }
        self.tries += 1;
        let Some(needed) = (self.differs)(&candidate) else { return false };
        self.fields = candidate;
        let shown = self.fields[..needed.min(self.fields.len())].to_vec();
        self.take(shown);
        true
    }

    /// Leave out all fields but those of a tag, or all of that tag; the last field stays.
    fn drop_tags(&mut self) {
        let tags: BTreeSet<u8> = self.fields.iter().filter_map(|field| field.first().copied()).collect();
        for tag in tags {
            self.keep(|field| field.first() == Some(&tag));
            self.keep(|field| field.first() != Some(&tag));
        }
    }

    fn keep(&mut self, stays: impl Fn(&[u8]) -> bool) {
        let last = self.fields.len() - 1;
        let places = (0..=last).filter(|&place| place == last || stays(&self.fields[place]));
        let kept = places.map(|place| self.fields[place].clone()).collect();
        self.take(kept);
    }

    /// Leave out runs of fields, long ones first.
    fn drop_runs(&mut self) {
        let mut size = self.fields.len() / 2;
        while size > 0 {
            let mut end = self.fields.len();
            while end > 0 {
                end = end.min(self.fields.len());
                let start = end.saturating_sub(size);
                self.drop_run(start..end);
                end = start;
            }
            size /= 2;
        }
    }

    /// Leave out a run: with the other events done by the same threads, else as they stand, else with names for the same threads.
    fn drop_run(&mut self, run: Range<usize>) {
        let without = [&self.fields[..run.start], &self.fields[run.end..]].concat();
        if !self.names_threads {
            self.take(without);
            return;
        }
        let replayed = names::replayed(&self.fields, run.clone());
        let renamed = names::renamed(&self.fields, run);
        let same = renamed == without;
        if !self.take(replayed) && !self.take(without) && !same {
            self.take(renamed);
        }
    }

    /// Leave out whole rows of ticks, or have one wait in their place.
    fn drop_waits(&mut self) {
        let mut end = self.fields.len();
        while end > 0 {
            end = end.min(self.fields.len());
            let start = self.fields[..end]
                .iter()
                .rposition(|field| *field != bytes::tick())
                .map_or(0, |place| place + 1);
            if end - start > 1 {
                let waits = self.replaced(start..end, &bytes::request(8, 0));
                let without = [&self.fields[..start], &self.fields[end..]].concat();
                if !self.take(without) {
                    self.take(waits);
                }
            }
            end = start.saturating_sub(1);
        }
    }

    /// One event in place of several: a message for a long way to a notice, a wait for five ticks.
    fn replace_rows(&mut self) {
        let one = [
            bytes::send(FIRST, 0),
            bytes::receive(NOBODY),
            bytes::request(2, 0),
            bytes::request(8, 0),
            bytes::request(3, NOBODY),
        ];
        for size in [16, 12, 8, 6, 5, 4, 3, 2] {
            let mut start = 0;
            while start + size <= self.fields.len() && self.fields.len() <= SHORT {
                let shorter = |event: &Vec<u8>| self.replaced(start..start + size, event);
                let candidates: Vec<Vec<Vec<u8>>> = one.iter().map(shorter).collect();
                if !candidates.into_iter().any(|candidate| self.take(candidate)) {
                    start += 1;
                }
            }
        }
    }

    fn replaced(&self, run: Range<usize>, event: &[u8]) -> Vec<Vec<u8>> {
        let mut fields = self.fields.clone();
        fields.splice(run, [event.to_vec()]);
        fields
    }

    /// Leave out any two fields, of a short input.
    fn drop_pairs(&mut self) {
        let mut later = self.fields.len();
        while later > 1 && self.fields.len() <= SHORT / 2 {
            later = (later - 1).min(self.fields.len() - 1);
            for earlier in (0..later).rev() {
                let mut candidate = self.fields.clone();
                candidate.remove(later);
                candidate.remove(earlier);
                if self.take(candidate) {
                    break;
                }
            }
        }
    }

    fn make_values_small(&mut self) {
        for place in 0..self.fields.len() {
            self.shorten_value(place);
            for byte in 3..self.fields.get(place).map_or(0, Vec::len) {
                self.lower_byte(place, byte);
            }
        }
    }

    /// A field that is refused for its length or tag can be shorter.
    fn shorten_value(&mut self, place: usize) {
        while let Some((tag, value, [])) = self.fields.get(place).and_then(|field| first_field(field)) {
            let mut candidate = self.fields.clone();
            candidate[place] = bytes::field(tag, &value[..value.len() / 2]);
            if !self.take(candidate) {
                return;
            }
        }
    }

    fn lower_byte(&mut self, place: usize, byte: usize) {
        let now = self.fields.get(place).and_then(|field| field.get(byte)).copied().unwrap_or(0);
        for lower in [0, 1, 2, now / 2, now.saturating_sub(1)] {
            if lower < now {
                let mut candidate = self.fields.clone();
                candidate[place][byte] = lower;
                if self.take(candidate) {
                    return;
                }
            }
        }
    }
}

/// Fewer fields, else fewer bytes, else lower ones.
fn is_smaller(one: &[Vec<u8>], other: &[Vec<u8>]) -> bool {
    let size = |fields: &[Vec<u8>]| (fields.len(), fields.iter().map(Vec::len).sum::<usize>());
    (size(one), one) < (size(other), other)
}
