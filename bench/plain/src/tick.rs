//! Tick: the runner's count and slice, the beat, then a used-up slice.

use crate::numbers::BEAT;
use crate::threads::State;
use crate::{Answer, Plain};

impl Plain {
    pub(crate) fn tick(&mut self) {
        let me = self.place(self.runner);
        if let Some(me) = me {
            let ticks = &mut self.threads[me].ticks;
            *ticks = ticks.wrapping_add(1);
            self.slice -= 1;
        }
        self.since += 1;
        if self.since == BEAT {
            self.beat();
        }
        // Behind the clock waiters that this tick woke.
        if let (Some(me), 0) = (me, self.slice) {
            self.ready.push(self.runner);
            self.stop(me, State::Ready);
        }
    }

    fn beat(&mut self) {
        self.since = 0;
        self.beats = self.beats.wrapping_add(1);
        let waiters = self.clock;
        self.clock.clear();
        for &name in waiters.iter() {
            if let Some(place) = self.place(name) {
                self.wake(place, Answer::result(self.beats));
            }
        }
    }
}
