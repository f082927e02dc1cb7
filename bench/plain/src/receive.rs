//! Receive: the oldest message or notice that is wanted, or a wait for it.

use crate::numbers::{refusal, NOBODY};
use crate::threads::State;
use crate::{Answer, Plain};

impl Plain {
    pub(crate) fn receive(&mut self, me: usize, wanted: u8) -> Result<Answer, u8> {
        if wanted != NOBODY && self.place(wanted).is_none() {
            return Err(refusal::NOT_LIVE);
        }
        let name = self.threads[me].name;
        let found = self.messages.iter().position(|m| m.to == name && (wanted == NOBODY || m.from == wanted));
        Ok(match found {
            Some(at) => self.messages.remove(at).answer(),
            None => {
                self.stop(me, State::Receiving(wanted));
                Answer::NONE
            }
        })
    }
}
