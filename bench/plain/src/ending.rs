//! Ending: the named thread, and all that end with it.

use crate::numbers::GONE;
use crate::threads::State;
use crate::{Answer, Plain};

/// A set of names, a bit for each. `NOBODY` and `GONE` are never in it, so that entries can be asked for without a look at what they are.
#[derive(Clone, Copy)]
struct NameSet([u64; 4]);

impl NameSet {
    fn has(&self, name: u8) -> bool {
        self.0[usize::from(name >> 6)] >> (name & 63) & 1 == 1
    }

    fn add(&mut self, name: u8) {
        self.0[usize::from(name >> 6)] |= 1 << (name & 63);
    }
}

impl Plain {
    pub(crate) fn end(&mut self, named: u8) {
        let ended = self.ended_set(named);
        self.threads.retain(|thread| !ended.has(thread.name));
        self.ready.retain(|&name| !ended.has(name));
        self.clock.retain(|&name| !ended.has(name));
        self.messages.retain(|message| !ended.has(message.to) && !ended.has(message.from));
        if ended.has(self.runner) {
            self.leave_processor();
        }
        self.tell_survivors(&ended);
    }

    /// The smallest set with the named thread and, with each member, its children and every thread trapped on it. Rounds until one adds
    /// nobody: sons mostly have higher names than their parents, so one round finds nearly all.
    fn ended_set(&self, named: u8) -> NameSet {
        let mut ended = NameSet([0; 4]);
        ended.add(named);
        loop {
            let mut grew = false;
            for thread in self.threads.iter() {
                let follows = ended.has(thread.parent) || thread.trapped_on().is_some_and(|name| ended.has(name));
                if follows && !ended.has(thread.name) {
                    ended.add(thread.name);
                    grew = true;
                }
            }
            if !grew {
                return ended;
            }
        }
    }

    /// Managers become gone; who receives from a member becomes ready, by rising name, as the threads stand.
    fn tell_survivors(&mut self, ended: &NameSet) {
        for thread in self.threads.iter_mut() {
            for manager in &mut thread.managers {
                if ended.has(*manager) {
                    *manager = GONE;
                }
            }
        }
        for place in 0..self.threads.len() {
            if let State::Receiving(wanted) = self.threads[place].state {
                if ended.has(wanted) {
                    self.wake(place, Answer::sender_gone(wanted));
                }
            }
        }
    }
}
