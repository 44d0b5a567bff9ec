//! A clock that is taken back (R5), and one that never is.

use super::State;
use crate::calls::{Answer, Call};
use crate::numbers::*;

/// R5.1: K, where V is 2^61 or more; else nothing.
pub fn taken_off(clock: i128) -> i128 {
    if clock < CLOCK_FAR {
        return 0;
    }
    let most = clock - CLOCK_KEPT;
    most - most % CLOCK_STEP
}

impl State {
    /// R5.2: takes so much off V and every S and F; an idle lane's F stops at 0.
    pub fn lower(&mut self, off: i128) {
        if off == 0 {
            // Most puts: no lane is gone through, with a remainder of 128 bits each.
            return;
        }
        self.clock -= off;
        self.back += off;
        for lane in &mut self.lanes {
            lane.finish -= off;
            if lane.holds() {
                lane.start -= off;
                lane.rounded_start = lane.rounded(lane.start);
            } else {
                lane.finish = lane.finish.max(0);
            }
        }
    }

    /// The contents that the same calls would have made, had so much less been taken off the clock.
    pub fn lift(&mut self, up: i128) {
        self.lower(-up);
    }

    /// The answer of an endless clock.
    pub fn answer_endless(&mut self, call: &Call) -> Answer {
        match call.put() {
            Some((lane, train, mark, length)) => {
                self.put_endless(lane, train, mark, length).map_or_else(Answer::No, Answer::Put)
            }
            None => self.answer(call),
        }
    }
}
