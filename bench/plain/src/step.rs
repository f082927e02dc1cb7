//! The step: an event refused, or served, dispatched and answered.

use crate::events::{decode, Call, Event};
use crate::numbers::{refusal, NOBODY};
use crate::{Answer, Plain};

#[derive(Clone, Copy, Debug, PartialEq, Eq)]
pub struct Decision {
    pub refusal: u8,
    pub status: u8,
    pub runner: u8,
    pub answer: Answer,
}

impl Decision {
    /// Refusal 11.
    pub(crate) const NO_TABLES: Decision = Decision { refusal: refusal::NO_TABLES, status: NOBODY, runner: NOBODY, answer: Answer::NONE };

    /// As a batch writes them.
    pub fn numbers(self) -> [u32; 6] {
        let Answer { kind, sender, word } = self.answer;
        [self.refusal.into(), self.status.into(), self.runner.into(), kind.into(), sender.into(), word]
    }
}

impl Plain {
    /// One event, given by the bytes of its field. A refused one changes nothing.
    pub fn step(&mut self, field: &[u8]) -> Decision {
        match self.serve(field) {
            Ok(at_once) => {
                // Only a runner that goes on gets something at once, and then dispatch has nothing to hand over.
                let answer = self.dispatch().unwrap_or(at_once);
                self.decision(0, answer)
            }
            Err(refusal) => self.decision(refusal, Answer::NONE),
        }
    }

    fn decision(&self, refusal: u8, answer: Answer) -> Decision {
        Decision { refusal, status: self.status(), runner: self.runner, answer }
    }

    /// What the runner gets at once, or the refusal. The refusals of one event stand where it is served, before any change.
    fn serve(&mut self, field: &[u8]) -> Result<Answer, u8> {
        if self.is_stopped() {
            return Err(refusal::STOPPED);
        }
        match decode(field).ok_or(refusal::MALFORMED)? {
            Event::Tick => self.tick(),
            Event::Interrupt { device, word } => self.interrupt(device, word),
            Event::ByRunner(call) => {
                let me = self.place(self.runner).ok_or(refusal::NO_RUNNER)?;
                return self.call(me, call);
            }
        }
        Ok(Answer::NONE)
    }

    /// `me` is the runner's place.
    fn call(&mut self, me: usize, call: Call) -> Result<Answer, u8> {
        match call {
            Call::Send { to, word } => self.send(me, to, word),
            Call::Receive { wanted } => self.receive(me, wanted),
            Call::CreateBrother => self.create_brother(me),
            Call::CreateSon => self.create_son(me),
            Call::Terminate { named } => self.terminate(named),
            Call::SetManager { kind, manager } => self.set_manager(me, kind, manager),
            Call::GetCpuTime => Ok(Answer::result(self.threads[me].ticks)),
            Call::WaitForClock => Ok(self.wait_for_clock(me)),
            Call::WaitForIo { device } => self.wait_for_io(me, device),
            Call::Trap { kind, cause } => Ok(self.trap(me, kind, cause)),
        }
    }
}
