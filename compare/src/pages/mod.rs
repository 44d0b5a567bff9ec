//! Settings pages (R19): a page read, made from the papers and the readings in docs/DECISIONS.md.
//!
//! - [`reader`] — the page's fields in order, and the setup inside
//! - [`slips`] — the same reader, built otherwise, with one mistake, for the comparison to find
//! - [`draw`] — random pages: whole, damaged, and at both sides of each refusal's edge
//! - [`driver`] — the cases: a page read, and read again without its skipped fields
//! - [`frames`] — pages by pipe to the unit's program `page_vectors`

pub mod draw;
pub mod driver;
pub mod frames;
pub mod reader;
pub mod slips;

use crate::fields::Fault;
use crate::setup::{LanePlan, Setup};

pub const EDITION: u8 = 0x40;
pub const SETTINGS: u8 = 0x41;
pub const END: u8 = 0x7F;
/// Tags from here on are passed over.
pub const SKIPPED: u8 = 0x80;

#[derive(Clone, Debug, PartialEq, Eq)]
pub struct Page {
    pub edition: u16,
    pub setup: Setup,
}

impl Page {
    /// What a unit heeds of it: a table knows no format.
    pub fn means(&self) -> (u16, u8, &[LanePlan]) {
        (self.edition, self.setup.framing, &self.setup.lanes)
    }
}

/// What reads pages.
pub trait Reads {
    fn read(&mut self, page: &[u8]) -> Result<Page, Fault>;
}
