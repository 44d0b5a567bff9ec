//! The desk's journal, a second time, and its comparison with the unit's. Written from the papers' paragraph on the journal and the readings
//! that docs/DECISIONS.md lists, and its bytes from docs/DESK.md; from nothing else.
//!
//! - [`rules`] — the trains that are shown, by number, and what each call does
//! - [`bytes`] — a journal in the bytes of a board and back; a handover record's field; the calls on lent bytes
//! - [`slips`] — the same calls with one mistake, for the comparison to find
//! - [`draw`] — random journals, fields, damage and calls
//! - [`driver`] — the cases: lists of calls, boards that no call made, and two records in either order
//! - [`linked`] — the unit's static library (feature `unit`)

pub mod bytes;
pub mod draw;
pub mod driver;
#[cfg(feature = "unit")]
pub mod linked;
pub mod rules;
pub mod slips;

/// A refusal: its number, and its place where it has one.
#[derive(Clone, Copy, Debug, PartialEq, Eq)]
pub struct Refused {
    pub number: u64,
    pub place: Option<u64>,
}

impl Refused {
    pub fn by(number: u64) -> Refused {
        Refused { number, place: None }
    }

    pub fn at(number: u64, place: u64) -> Refused {
        Refused { number, place: Some(place) }
    }
}

/// What a line shows.
#[derive(Clone, Copy, Debug, PartialEq, Eq)]
pub struct Shown {
    pub kind: u64,
    pub train: u64,
    pub cell: u64,
    pub sequence: u64,
}

/// The calls on a lent board.
pub trait Desk {
    fn begin(&mut self, board: &mut [u8]) -> Result<(), Refused>;
    fn record(&mut self, board: &mut [u8], field: &[u8]) -> Result<u64, Refused>;
    fn clear(&mut self, board: &mut [u8], train: u32) -> Result<u64, Refused>;
    fn line(&mut self, board: &mut [u8], line: u8) -> Result<Option<Shown>, Refused>;
}
