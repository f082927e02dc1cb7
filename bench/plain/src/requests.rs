//! The services that change the tables. GETCPUTIME is a look-up in the step.

use crate::numbers::{refusal, FIRST, NAMES, NOBODY, THREADS};
use crate::threads::{State, Thread};
use crate::{Answer, Plain};

impl Plain {
    pub(crate) fn create_brother(&mut self, me: usize) -> Result<Answer, u8> {
        let Thread { name, parent, .. } = self.threads[me];
        if name == FIRST {
            return Err(refusal::BROTHER_OF_FIRST);
        }
        self.create(parent)
    }

    pub(crate) fn create_son(&mut self, me: usize) -> Result<Answer, u8> {
        self.create(self.threads[me].name)
    }

    fn create(&mut self, parent: u8) -> Result<Answer, u8> {
        if self.threads.len() == THREADS {
            return Err(refusal::NO_THREAD_BLOCK);
        }
        let name = self.next_name();
        let at = self.threads.partition_point(|thread| thread.name < name);
        self.threads.insert(at, Thread::new(name, parent, State::Ready));
        self.ready.push(name);
        self.last = name;
        Ok(Answer::result(name.into()))
    }

    /// The first free name behind the one given last. There are more names than threads.
    fn next_name(&self) -> u8 {
        let mut name = successor(self.last);
        while self.place(name).is_some() {
            name = successor(name);
        }
        name
    }

    pub(crate) fn terminate(&mut self, named: u8) -> Result<Answer, u8> {
        let name = if named == NOBODY { self.runner } else { named };
        self.place(name).ok_or(refusal::NOT_LIVE)?;
        self.end(name);
        Ok(Answer::NONE)
    }

    pub(crate) fn set_manager(&mut self, me: usize, kind: u8, manager: u8) -> Result<Answer, u8> {
        self.place(manager).ok_or(refusal::NOT_LIVE)?;
        let thread = &mut self.threads[me];
        let name = thread.name;
        if manager == name {
            return Err(refusal::OWN_MANAGER);
        }
        let entry = &mut thread.managers[usize::from(kind)];
        if *entry != NOBODY {
            self.end(name);
            return Ok(Answer::NONE);
        }
        *entry = manager;
        Ok(Answer::result(0))
    }

    pub(crate) fn wait_for_clock(&mut self, me: usize) -> Answer {
        self.clock.push(self.runner);
        self.stop(me, State::Clock);
        Answer::NONE
    }

    pub(crate) fn wait_for_io(&mut self, me: usize, device: u8) -> Result<Answer, u8> {
        if self.device_waiter(device).is_some() {
            return Err(refusal::DEVICE_TAKEN);
        }
        Ok(match self.held.iter().position(|held| held.device == device) {
            Some(at) => Answer::result(self.held.remove(at).word),
            None => {
                self.stop(me, State::Device(device));
                Answer::NONE
            }
        })
    }
}

fn successor(name: u8) -> u8 {
    if name == NAMES - 1 {
        0
    } else {
        name + 1
    }
}
