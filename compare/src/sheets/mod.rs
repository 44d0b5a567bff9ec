//! The office's text sheet (R12): a sheet read into a plan area, and a plan area written as a sheet, made from the papers, the readings in
//! docs/DECISIONS.md and the words that `include/zenfrosta.h` lists.
//!
//! - [`text`] — a sheet read, line by line, and written; the two calls
//! - [`slips`] — the same calls with one mistake, for the comparison to find
//! - [`draw`] — random sheets, right and wrong
//! - [`driver`] — the cases: sheets that are read and written back, and areas that a host filled
//! - [`linked`] — the unit's static library (feature `unit`)

pub mod draw;
pub mod driver;
#[cfg(feature = "unit")]
pub mod linked;
pub mod slips;
pub mod text;

pub use crate::journal::Refused;

/// The two calls.
pub trait Office {
    fn read(&mut self, sheet: &[u8], area: &mut [u8]) -> Result<u64, Refused>;
    fn write(&mut self, area: &[u8], sheet: &mut [u8]) -> Result<u64, Refused>;
}
