//! Events that are to be refused, and well-formed ones that look at nothing.

use super::{Form, Generator};
use crate::event::{bytes, tag_facts};
use crate::numbers::{Name, DEVICES, KINDS, NAMES, NOBODY, SSI};

impl Generator {
    pub(super) fn dead_name_event(&mut self) -> Option<Vec<u8>> {
        let dead: Vec<Name> = (0..NAMES).filter(|&name| !self.node.is_live(name)).collect();
        let name = self.random.choose(&dead)?;
        Some(self.event_with_name(name))
    }

    /// Names 254 and 255 where a name is asked for.
    pub(super) fn odd_name_event(&mut self) -> Vec<u8> {
        if self.random.one_in(2) {
            return self.event_with_name(SSI);
        }
        if self.random.one_in(2) {
            return bytes::send(NOBODY, self.word());
        }
        bytes::request(4 + self.kind(), NOBODY)
    }

    fn event_with_name(&mut self, name: u8) -> Vec<u8> {
        match self.random.below(4) {
            0 => bytes::send(name, self.word()),
            1 => bytes::receive(name),
            2 => bytes::request(3, name),
            _ => bytes::request(4 + self.kind(), name),
        }
    }

    /// One well-formed field with a value out of its range.
    pub(super) fn bad_value_event(&mut self) -> Vec<u8> {
        match self.random.below(8) {
            0 => {
                let service = self.random.byte();
                let service = if (1..=9).contains(&service) { 0 } else { service };
                bytes::request(service, 0)
            }
            1 => bytes::request(10, 0),
            2 => {
                let service = self.random.choose(&[1, 2, 7, 8]).unwrap_or(1);
                bytes::request(service, 1 + self.random.below(255) as u8)
            }
            3 => bytes::trap(KINDS + self.random.below(253) as u8, self.word()),
            4 => bytes::request(9, DEVICES + self.random.below(208) as u8),
            5 => bytes::interrupt(0, self.word()),
            6 => bytes::interrupt(1u64 << (48 + self.random.below(16)), self.word()),
            _ => bytes::interrupt(self.random.bits() | 1u64 << (48 + self.random.below(16)), self.word()),
        }
    }

    /// Bytes that are no well-formed event.
    pub(super) fn malformed(&mut self) -> Vec<u8> {
        if self.form == Form::Single && self.random.one_in(2) {
            return self.no_single_field();
        }
        match self.random.below(4) {
            0 => self.unknown_tag(),
            1 | 2 => self.wrong_length(),
            _ => self.bad_value_event(),
        }
    }

    fn unknown_tag(&mut self) -> Vec<u8> {
        let tag = match self.random.below(3) {
            0 => self.random.below(16) as u8,
            1 => 22 + self.random.below(10) as u8,
            _ => 22 + self.random.below(234) as u8,
        };
        let length = self.rubbish_length();
        self.rubbish_field(tag, length)
    }

    fn wrong_length(&mut self) -> Vec<u8> {
        let tag = 16 + self.random.below(6) as u8;
        let right = tag_facts(tag).map_or(0, |facts| facts.length);
        let length = match self.random.below(3) {
            0 => right + 1,
            1 if right > 0 => right - 1,
            _ => self.rubbish_length(),
        };
        self.rubbish_field(tag, length)
    }

    fn rubbish_length(&mut self) -> usize {
        let length = match (self.form, self.random.below(200)) {
            (Form::Stream, 0) => self.random.below(65_536),
            (Form::Stream, 1..=10) => self.random.below(300),
            _ => self.random.below(30),
        };
        length as usize
    }

    fn rubbish_field(&mut self, tag: u8, length: usize) -> Vec<u8> {
        let value: Vec<u8> = (0..length).map(|_| self.random.byte()).collect();
        bytes::field(tag, &value)
    }

    /// Bytes that are not exactly one field.
    fn no_single_field(&mut self) -> Vec<u8> {
        let mut event = self.any_event();
        match self.random.below(3) {
            0 => event.push(self.random.byte()),
            1 => event.extend(bytes::tick()),
            _ => event = self.cut_off(event),
        }
        event
    }

    /// The first bytes of a field, at least one.
    pub(super) fn cut_off(&mut self, mut field: Vec<u8>) -> Vec<u8> {
        let kept = 1 + self.random.below(field.len() as u64 - 1) as usize;
        field.truncate(kept);
        field
    }

    /// A well-formed event, whatever the state.
    pub(super) fn any_event(&mut self) -> Vec<u8> {
        let name = self.any_live();
        match self.random.below(9) {
            0 => bytes::send(name, self.word()),
            1 => bytes::receive(if self.random.one_in(2) { name } else { NOBODY }),
            2 => bytes::request(2, 0),
            3 => bytes::request(3 + self.random.below(4) as u8, name),
            4 => bytes::request(7 + self.random.below(2) as u8, 0),
            5 => bytes::request(9, self.device()),
            6 => bytes::trap(self.kind(), self.word()),
            7 => self.interrupt(),
            _ => bytes::tick(),
        }
    }
}
