//! The clock's far end, through the calls alone: one lane of weight 1 gets its longest record and sends it, again and again. Each pair moves the clock by
//! 1,500 times 1,048,576, so it is taken back after some 1.5 thousand million pairs, and then again.

use super::report::{Found, Tally};
use crate::calls::{Answer, Call};
use crate::gen::setups;
use crate::laws::endless::{self, Endless};
use crate::numbers::{CLOCK_FAR, CLOCK_STEP};
use crate::rng::Rng;
use crate::rules::State;
use crate::setup::{LanePlan, Setup};
use crate::unit::Unit;

/// How often a drive from near the end comes to it.
pub const TIMES: u64 = 40;

/// The setup of the drive.
pub fn setup() -> Setup {
    Setup {
        format: 1,
        framing: 0,
        lanes: vec![LanePlan { number: 0, weight: 1, longest: 1_500, shared: false }],
    }
}

/// Runs so many pairs from a fresh table; answers how often the clock was taken back.
pub fn drive<U: Unit>(unit: &mut U, pairs: u64, tally: &mut Tally) -> Result<u64, Found> {
    let mut drive = Drive::new(unit, tally)?;
    drive.begin()?;
    (0..pairs).try_for_each(|pair| drive.pair(pair % 1_000 == 0))?;
    drive.end()
}

/// The same with the clock lifted, each time to some 2^33 before it is far: it is taken back within ten pairs.
pub fn drive_near<U: Unit>(unit: &mut U, tally: &mut Tally) -> Result<u64, Found> {
    let mut drive = Drive::new(unit, tally)?;
    drive.begin()?;
    for _ in 0..TIMES {
        drive.lift();
        (0..10).try_for_each(|_| drive.pair(true))?;
    }
    drive.end()
}

struct Drive<'a, U: Unit> {
    unit: &'a mut U,
    table: Vec<u8>,
    state: State,
    endless: Endless,
    times: u64,
    tally: &'a mut Tally,
}

const PUT: Call = Call::Put { lane: 0, mark: 7, length: 1_500 };

impl<'a, U: Unit> Drive<'a, U> {
    fn new(unit: &'a mut U, tally: &'a mut Tally) -> Result<Drive<'a, U>, Found> {
        let bytes = setups::bytes(&mut Rng::new(0), &setup());
        let mut table = vec![0; unit.table_size()];
        if unit.make(&bytes, &mut table) != Ok(1) {
            return Err(Found::new("a valid setup was refused", vec![]));
        }
        let state = State::fresh(&setup());
        let endless = Endless::new(&state);
        Ok(Drive { unit, table, state, endless, times: 0, tally })
    }

    fn call(&mut self, call: Call) -> Result<Answer, Found> {
        let (expected, answer) = (self.state.answer(&call), self.unit.answer(&mut self.table, &call));
        self.tally.calls += 1;
        let (calls, clock) = (self.tally.calls, self.state.clock);
        let found = |what: String| {
            Found::new(what, vec![format!("{calls} calls, of which most are pairs of put 0/7/1500 and take")])
        };
        if answer != expected {
            return Err(found(format!("at V = {clock}: {call} gave {answer}, the rules say {expected}")));
        }
        self.endless.answers(&call, answer).map_err(found)?;
        endless::early(&self.state).map_err(found)?;
        if call.only_reads() {
            self.endless.beside(&self.state).map_err(found)?;
        }
        Ok(answer)
    }

    /// One record is held from now on between the pairs, so that the lane's S is lowered, too.
    fn begin(&mut self) -> Result<(), Found> {
        self.call(PUT).map(|_| ())
    }

    fn pair(&mut self, looks: bool) -> Result<(), Found> {
        let back = self.state.back;
        self.call(PUT)?;
        let taken_back = self.state.back != back;
        self.times += u64::from(taken_back);
        if looks || taken_back {
            for call in [Call::Lag { lane: 0 }, Call::Sets, Call::Look, Call::Restart] {
                self.call(call)?;
            }
        }
        self.call(Call::Take).map(|_| ())
    }

    fn lift(&mut self) {
        let up = CLOCK_FAR - 4 * CLOCK_STEP - self.state.clock;
        let up = up - up % CLOCK_STEP;
        self.state.lift(up);
        self.unit.lift(&mut self.table, up as u64);
    }

    /// Drained, restarted and used again.
    fn end(&mut self) -> Result<u64, Found> {
        let last =
            [Call::Take, Call::Take, Call::Lag { lane: 0 }, PUT, Call::Restart, Call::Take, Call::Restart];
        for call in last.into_iter().chain([PUT, PUT, Call::Sets, Call::Take]) {
            self.call(call)?;
        }
        Ok(self.times)
    }
}
