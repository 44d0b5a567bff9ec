//! The small halt (R20), a second time: which setups and which tables are its own, and its calls, which are the plain rules' on those. Made from
//! the papers and the readings in docs/DECISIONS.md.
//!
//! - [`slips`] — the same with one mistake, for the comparison to find
//! - [`draw`] — setups that are the halt's, beside it or another's, and tables of them
//! - [`driver`] — the cases: setups made, calls on tables, and lists of calls with the figures of a lane that waits
//! - [`linked`] — the unit's static library (feature `unit`)

pub mod draw;
pub mod driver;
#[cfg(feature = "unit")]
pub mod linked;
pub mod slips;

pub use crate::journal::Refused;

use crate::calls::{Answer, Call};
use crate::layout::{self, TABLE_SIZE};
use crate::numbers::refusal;
use crate::rules::State;
use crate::setup::{self, LanePlan, Setup};

/// R20.1
pub const LANES: [LanePlan; 4] = [lane(0, 512), lane(1, 256), lane(2, 128), lane(3, 128)];

const fn lane(number: u8, weight: u16) -> LanePlan {
    LanePlan { number, weight, longest: 256, shared: false }
}

/// R20.5: a lane that is busy and sends nothing sees fewer bytes than this.
pub const SEES_BELOW: [u64; 4] = [2_304, 4_352, 8_448, 8_448];

/// The halt's calls. Those that only read get their table for writing too, so that a write would be seen.
pub trait Halt {
    fn make(&mut self, setup: &[u8], table: &mut [u8]) -> Result<u64, Refused>;
    /// Put, take, look, sets, lag or restart; a put is of train 0.
    fn answer(&mut self, table: &mut [u8], call: &Call) -> Answer;
}

/// R20.2: the plan decides, not its bytes.
pub fn own(framing: u8, lanes: impl Iterator<Item = LanePlan>) -> bool {
    framing == 0 && lanes.eq(LANES)
}

/// What making answers on so many bytes: 7, then what is wrong with the setup, then 90 if it is another one (R20.2).
pub fn makes(input: &[u8], length: usize) -> Result<Setup, Refused> {
    if length < TABLE_SIZE {
        return Err(Refused::at(refusal::TABLE_SHORT.into(), 0));
    }
    let setup = setup::whole(input).map_err(|fault| Refused::at(fault.number.into(), fault.place))?;
    match own(setup.framing, setup.lanes.iter().copied()) {
        true => Ok(setup),
        false => Err(Refused::by(refusal::NOT_A_HALT.into())),
    }
}

/// R20.3: what a table of the halt's holds; any other gives 10, as one that is not good does. Any edition may have been taken.
pub fn held(table: &[u8]) -> Option<State> {
    let state = layout::read(table).good()?;
    (state.page.is_none() && own(state.framing, plans(&state))).then_some(state)
}

pub fn plans(state: &State) -> impl Iterator<Item = LanePlan> + '_ {
    state.lanes.iter().map(|lane| lane.plan)
}
