//! Send: a message, or a manager's decision on a trapped thread.

use crate::numbers::{refusal, BLOCKS, NOTICE, ORDINARY};
use crate::threads::Message;
use crate::{Answer, Plain};

impl Plain {
    pub(crate) fn send(&mut self, me: usize, to: u8, word: u32) -> Result<Answer, u8> {
        let receiver = self.place(to).ok_or(refusal::NOT_LIVE)?;
        let from = self.threads[me].name;
        if self.threads[receiver].trapped_on() == Some(from) {
            return self.decide(from, receiver, word);
        }
        if !self.threads[receiver].receives_from(from) && !self.has_free_block() {
            return Err(refusal::NO_BLOCK);
        }
        self.deliver(receiver, Message { to, from, kind: ORDINARY, word });
        Ok(Answer::NONE)
    }

    /// The word of the manager that the thread is trapped on.
    fn decide(&mut self, manager: u8, trapped: usize, word: u32) -> Result<Answer, u8> {
        let name = self.threads[trapped].name;
        match word {
            0 => {
                self.discard_notice(manager, name);
                self.wake(trapped, Answer::NONE);
            }
            1 => self.end(name),
            _ => return Err(refusal::NO_DECISION),
        }
        Ok(Answer::NONE)
    }

    /// There is one at most, and none if it was read.
    fn discard_notice(&mut self, manager: u8, name: u8) {
        let is_it = |m: &Message| m.to == manager && m.from == name && m.kind == NOTICE;
        if let Some(at) = self.messages.iter().position(is_it) {
            self.messages.remove(at);
        }
    }

    /// Fewer messages than blocks need no count.
    fn has_free_block(&self) -> bool {
        self.messages.len() < BLOCKS || self.messages.iter().filter(|m| m.kind == ORDINARY).count() < BLOCKS
    }

    /// To a receiver that waits for it, else to the end of the inbox. For messages and notices.
    pub(crate) fn deliver(&mut self, receiver: usize, message: Message) {
        if self.threads[receiver].receives_from(message.from) {
            self.wake(receiver, message.answer());
        } else {
            let end = self.messages.partition_point(|m| m.to <= message.to);
            self.messages.insert(end, message);
        }
    }
}
