//! Who runs next, and the status. Also the moves that every word shares: a thread becomes ready, the runner stops.

use crate::numbers::{NOBODY, SLICE};
use crate::threads::State;
use crate::{Answer, Plain};

impl Plain {
    /// The answer handed over, if somebody new runs.
    pub(crate) fn dispatch(&mut self) -> Option<Answer> {
        if self.runner != NOBODY || self.ready.is_empty() {
            return None;
        }
        let name = self.ready.remove(0);
        self.runner = name;
        self.slice = SLICE;
        let place = self.place(name)?;
        let thread = &mut self.threads[place];
        thread.state = State::Running;
        Some(std::mem::replace(&mut thread.answer, Answer::NONE))
    }

    pub(crate) fn status(&self) -> u8 {
        if self.runner != NOBODY {
            0
        } else if self.threads.is_empty() {
            2
        } else if self.threads.iter().any(|thread| thread.wakes_from_outside()) {
            1
        } else {
            3
        }
    }

    /// Halted or panicked.
    pub(crate) fn is_stopped(&self) -> bool {
        self.status() > 1
    }

    /// To the tail of the ready queue.
    pub(crate) fn wake(&mut self, place: usize, answer: Answer) {
        let thread = &mut self.threads[place];
        thread.state = State::Ready;
        thread.answer = answer;
        self.ready.push(thread.name);
    }

    /// The runner, at this place, waits from now on.
    pub(crate) fn stop(&mut self, me: usize, state: State) {
        self.threads[me].state = state;
        self.leave_processor();
    }

    pub(crate) fn leave_processor(&mut self) {
        self.runner = NOBODY;
        self.slice = 0;
    }
}
