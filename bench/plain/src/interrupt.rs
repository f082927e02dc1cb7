//! Interrupt: the device's waiter is woken, or the word is held.

use crate::threads::{Held, State};
use crate::{Answer, Plain};

impl Plain {
    pub(crate) fn interrupt(&mut self, device: u8, word: u32) {
        match self.device_waiter(device) {
            Some(place) => self.wake(place, Answer::result(word)),
            None => self.hold(Held { device, word }),
        }
    }

    pub(crate) fn device_waiter(&self, device: u8) -> Option<usize> {
        self.threads.iter().position(|thread| thread.state == State::Device(device))
    }

    /// In place of one held before.
    fn hold(&mut self, word: Held) {
        let at = self.held.partition_point(|held| held.device < word.device);
        match self.held.get_mut(at) {
            Some(held) if held.device == word.device => *held = word,
            _ => self.held.insert(at, word),
        }
    }
}
