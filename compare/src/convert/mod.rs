//! Tables of 16 places taken over as tables of 64 (R7), worked plainly: the old bytes are read as contents, and the contents are written in
//! today's layout. Made from the papers, the readings in docs/DECISIONS.md and docs/TABLE.md.
//!
//! - [`slips`] — the same with one mistake, for the comparison to find
//! - [`draw`] — old tables: from calls of that time, at the edges of what was good, damaged, and no tables at all
//! - [`driver`] — the cases: a conversion, and then takes from both tables
//! - [`linked`] — the unit's static library (feature `unit`)

pub mod draw;
pub mod driver;
#[cfg(feature = "unit")]
pub mod linked;
pub mod slips;

pub use crate::journal::Refused;

use crate::calls::Taken;
use crate::layout::{self, old::THEN, TABLE_SIZE};
use crate::numbers::refusal;

/// The converter, and the call that is compared after it. The old table is lent for writing, so that a write would be seen.
pub trait Converter {
    fn convert(&mut self, old: &mut [u8], table: &mut [u8]) -> Result<(), Refused>;
    fn take(&mut self, table: &mut [u8]) -> Result<Taken, u8>;
}

/// What the converter answers. If it is done, the new bytes hold what the old ones hold; how, a converter may choose.
pub fn answer(old: &[u8], table: &[u8]) -> Result<(), Refused> {
    if table.len() < TABLE_SIZE {
        return Err(Refused::at(refusal::TABLE_SHORT.into(), 0));
    }
    match THEN.read(old).good() {
        Some(_) => Ok(()),
        None => Err(Refused::by(refusal::NOT_GOOD.into())),
    }
}

/// One way to do it.
pub fn convert(old: &[u8], table: &mut [u8]) -> Result<(), Refused> {
    answer(old, table)?;
    let state = THEN.read(old).good().expect("a good table");
    layout::write(&state, table);
    Ok(())
}
