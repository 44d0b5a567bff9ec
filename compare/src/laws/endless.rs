//! The clock without an end (R5.4, R5.5): answers are those of a clock that is never taken back and that nothing bounds; times stand beside its times, an idle
//! lane's by max(F, V). A twin with numbers of 128 bits answers the same calls and never takes its clock back.

use crate::calls::{Answer, Call};
use crate::numbers::CLOCK_EARLY;
use crate::rules::{Lane, State};

pub struct Endless {
    twin: State,
}

impl Endless {
    /// A twin of these contents.
    pub fn new(state: &State) -> Endless {
        Endless { twin: state.clone() }
    }

    /// One more call, its answer, and the table's contents after it.
    pub fn step(&mut self, call: &Call, answer: Answer, after: &State) -> Result<(), String> {
        self.answers(call, answer)?;
        self.beside(after)
    }

    pub fn answers(&mut self, call: &Call, answer: Answer) -> Result<(), String> {
        let endless = self.twin.answer_endless(call);
        if answer != endless {
            return Err(format!("{call} gave {answer}, where an endless clock gives {endless}"));
        }
        Ok(())
    }

    /// The twin is the same but for a clock that is further on by what was taken off since they were the same.
    pub fn beside(&self, table: &State) -> Result<(), String> {
        let twin = &self.twin;
        let on = self.on(table)?;
        for (own, other) in table.lanes.iter().zip(&twin.lanes) {
            same_times(own, table.clock, other, twin.clock, on)?;
            same_waiting(own, other)?;
        }
        if table.lanes.len() != twin.lanes.len() || table.turns() != twin.turns() {
            return Err("the turns are not the endless clock's".to_string());
        }
        Ok(())
    }

    /// The same after a call that put a record to one lane, or took one from it: what waits in the others and their turns among each other are as they were.
    pub fn beside_touched(&self, table: &State, touched: u8) -> Result<(), String> {
        let twin = &self.twin;
        let on = self.on(table)?;
        let lanes = table.lanes.iter().zip(&twin.lanes);
        let Some((own, other)) = lanes.clone().find(|(own, _)| own.plan.number == touched) else {
            return Err(format!("lane {touched} is not in the setup"));
        };
        same_waiting(own, other)?;
        for (lane, beside) in lanes {
            same_times(lane, table.clock, beside, twin.clock, on)?;
            if lane.holds() && own.holds() && own.turn().cmp(&lane.turn()) != other.turn().cmp(&beside.turn())
            {
                return Err("the turns are not the endless clock's".to_string());
            }
        }
        Ok(())
    }

    /// How much further on the endless clock is.
    fn on(&self, table: &State) -> Result<i128, String> {
        let on = self.twin.clock - table.clock;
        // B is told up to multiples of 2^36.
        if (table.back - self.twin.back - on) & ((1 << 36) - 1) != 0 {
            return Err(format!("V is {on} behind the endless clock, and {} was taken off", table.back));
        }
        Ok(on)
    }
}

/// An idle lane's time is the greater of F and V.
fn same_times(own: &Lane, clock: i128, other: &Lane, endless: i128, on: i128) -> Result<(), String> {
    let same = match (own.holds(), other.holds()) {
        (true, true) => {
            own.start + on == other.start
                && own.rounded_start + on == other.rounded_start
                && own.finish + on == other.finish
        }
        (false, false) => own.finish.max(clock) + on == other.finish.max(endless),
        _ => false,
    };
    if same {
        Ok(())
    } else {
        Err(format!("lane {} is not the endless clock's", own.plan.number))
    }
}

fn same_waiting(own: &Lane, other: &Lane) -> Result<(), String> {
    if (own.plan, &own.waiting) == (other.plan, &other.waiting) {
        Ok(())
    } else {
        Err(format!("lane {} does not hold what the endless clock's holds", own.plan.number))
    }
}

/// What is promised of tables that calls made: a clock that is never taken back would pass this.
pub fn early(state: &State) -> Result<(), String> {
    if state.clock >= CLOCK_EARLY {
        return Err(format!("the clock came to {}", state.clock));
    }
    Ok(())
}
