//! What must be true of every list of calls, whoever answers it. A law is fed the list call by call and stops the
//! run with a sentence where it is broken.
//!
//! - [`fairness`] — demand 3, on every stretch of the list and every lane
//! - [`compared`] — two busy lanes compared, on every stretch and every two lanes
//! - [`trains`] — two trains of a shared lane, on every stretch
//! - [`order`] — accepted records are handed out once, in their train's order, or still held; a put tells how many are ahead of it
//! - [`editions`] — offers of settings pages, and which setup is in force; the laws that go by a setup begin anew with it
//! - [`waits`] — how long one record waits, by the setup and the records ahead of it
//! - [`groups`] — the four words part the groups, name the chosen lane's group, and are in order of finish
//! - [`good`] — the clock's range and every other clause of a good table (R6)
//! - [`endless`] — every answer is that of a clock which is never taken back, and the clock is taken back in time
//! - [`ratio`] — how near a list came to a bound

pub mod compared;
pub mod editions;
pub mod endless;
pub mod fairness;
pub mod good;
pub mod groups;
pub mod order;
pub mod ratio;
pub mod trains;
pub mod waits;

use crate::calls::{Answer, Call};
use crate::numbers::{CLOCK_EARLY, CLOCK_FAR};
use crate::rules::State;
use ratio::Ratio;

/// After so many calls what is known to stay is looked at as well.
const WHOLE: u64 = 64;

/// A number of the rules as the laws add it up.
fn units(number: i128) -> i64 {
    i64::try_from(number).expect("a number of 64 bits")
}

/// All laws together.
pub struct Laws {
    pub fairness: fairness::Fairness,
    pub compared: compared::Compared,
    pub trains: trains::Even,
    pub order: order::Order,
    pub waits: waits::Waits,
    pub editions: editions::Editions,
    pub endless: endless::Endless,
    /// The endless clock.
    clock: i128,
    calls: u64,
    /// The greatest V so far.
    latest: i128,
}

impl Laws {
    pub fn new(fresh: &State) -> Laws {
        Laws {
            fairness: fairness::Fairness::new(fresh),
            compared: compared::Compared::new(fresh),
            trains: trains::Even::new(fresh),
            order: order::Order::default(),
            waits: waits::Waits::default(),
            editions: editions::Editions::default(),
            endless: endless::Endless::new(fresh),
            clock: fresh.clock + fresh.back,
            calls: 0,
            latest: fresh.clock,
        }
    }

    /// How far V came past where it is taken back, of what it never comes to.
    pub fn clock(&self) -> Ratio {
        Ratio::new((self.latest - CLOCK_FAR).max(0), CLOCK_EARLY - CLOCK_FAR)
    }

    /// One more call of the list, its answer, and the table's contents after it.
    pub fn step(&mut self, call: &Call, answer: Answer, after: &State) -> Result<(), String> {
        self.fairness.step(call, answer)?;
        self.compared.step(call, answer)?;
        self.trains.step(call, answer)?;
        // By lane number over the whole list: what was accepted before a change has all been handed out.
        self.order.step(call, answer)?;
        self.waits.step(call, answer, after)?;
        self.endless.answers(call, answer)?;
        let changed = self.editions.step(call, answer, after)?;
        if changed {
            self.change(after);
        }
        self.calls += 1;
        if self.calls % WHOLE == 0 {
            self.endless.beside(after)?;
            good::check(after)?;
        }
        if call.only_reads() || answer.refused() {
            return Ok(());
        }
        let touched = match (call.put(), answer) {
            (Some((lane, ..)), _) => Some(lane),
            (_, Answer::Taken(taken)) => Some(taken.lane),
            _ => None,
        };
        match touched.filter(|_| !changed) {
            Some(lane) => self.endless.beside_touched(after, lane)?,
            None => self.endless.beside(after)?,
        }
        groups::check(after)?;
        good::check_touched(after, touched.filter(|_| !changed))?;
        endless::early(after)?;
        self.latest = self.latest.max(after.clock);
        let clock = after.clock + after.back;
        if answer != Answer::Restarted && !changed && clock < self.clock {
            return Err(format!("the endless clock fell from {} to {clock}", self.clock));
        }
        self.clock = clock;
        Ok(())
    }

    /// Another setup is in force, and nothing is held: no stretch spans the change.
    fn change(&mut self, fresh: &State) {
        self.fairness = fairness::Fairness::after(fresh, &self.fairness);
        self.compared = compared::Compared::after(fresh, &self.compared);
        self.trains = trains::Even::after(fresh, &self.trains);
    }

    /// The list's end: what was accepted and not handed out is held.
    pub fn end(&mut self, after: &State) -> Result<(), String> {
        self.endless.beside(after)?;
        good::check(after)?;
        self.waits.end()?;
        self.order.end(after)
    }
}
