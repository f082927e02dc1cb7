//! Trap: the runner waits for its manager, or ends.

use crate::numbers::NOTICE;
use crate::threads::{Message, State};
use crate::{Answer, Plain};

impl Plain {
    pub(crate) fn trap(&mut self, me: usize, kind: u8, cause: u32) -> Answer {
        let thread = &self.threads[me];
        let (name, manager) = (thread.name, thread.managers[usize::from(kind)]);
        // An entry that is a name is a live one; none and gone are no names.
        match self.place(manager) {
            Some(place) => {
                self.stop(me, State::Trapped(kind));
                self.deliver(place, Message { to: manager, from: name, kind: NOTICE, word: cause });
            }
            None => self.end(name),
        }
        Answer::NONE
    }
}
