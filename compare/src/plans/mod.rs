//! Plans in lent bytes: a setup read into a plan area, and a plan area written as a setup (R9), made from the two papers, the readings in
//! docs/DECISIONS.md and the words that `include/zenfrosta.h` lists.
//!
//! - [`words`] — a plan in the words of an area and back; the bytes of a setup; the two calls
//! - [`slips`] — the same calls with one mistake, for the comparison to find
//! - [`driver`] — the cases: setups that are read and written back, and areas that a host filled
//! - [`linked`] — the unit's static library (feature `unit`)

pub mod driver;
#[cfg(feature = "unit")]
pub mod linked;
pub mod slips;
pub mod words;

pub use crate::journal::Refused;

/// The two calls.
pub trait Depot {
    fn read(&mut self, setup: &[u8], area: &mut [u8]) -> Result<u64, Refused>;
    fn write(&mut self, area: &[u8], setup: &mut [u8]) -> Result<u64, Refused>;
}
