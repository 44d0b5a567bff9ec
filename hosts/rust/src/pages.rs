//! Settings pages: a setup with an edition, for a unit in the field (docs/PAGES.md).

use crate::{answer, boundary, Plan, Refusal};

/// The bytes that a page has beside its setup.
pub const PAGE_MORE: usize = 11;

/// What a unit does with a page that it accepts.
#[derive(Clone, Copy, Debug, PartialEq, Eq)]
pub enum Offered {
    /// No record was held: the table is the fresh one of the page's setup.
    InForce,
    /// A record is held: the [`take`](crate::take) that hands out the last one brings the page into force.
    Waits,
}

/// The editions that a unit knows of.
#[derive(Clone, Copy, Debug, PartialEq, Eq)]
pub struct Editions {
    /// The last edition taken, 0 before any.
    pub last: u16,
    /// The edition of the page that waits.
    pub waiting: Option<u16>,
}

/// Offers a settings page. It is in force at once where no record is held; else it waits, in place of one that waited.
///
/// Refused with 10, then with what is wrong in the page, at its place in the page's bytes, then with 60 if the edition is not above the last one taken and the
/// one that waits. A refusal changes nothing. The lanes may be others once the page is in force; the take that brings it answers by the setup before.
pub fn offer(table: &mut [u8], page: &[u8]) -> Result<Offered, Refusal> {
    answer(boundary::offer(table, page))
        .map(|words| if words[0] == 0 { Offered::InForce } else { Offered::Waits })
}

/// The last edition taken and the one that waits. The call shows a table and changes nothing.
pub fn edition(table: &[u8]) -> Result<Editions, Refusal> {
    // The library widened two u16.
    answer(boundary::edition(table))
        .map(|words| Editions { last: words[0] as u16, waiting: (words[1] != 0).then_some(words[1] as u16) })
}

/// A settings page around a setup; none where the setup is longer than a field's 65,535 bytes. Whether a unit takes it is for [`offer`] to say.
pub fn page(edition: u16, setup: &[u8]) -> Option<Vec<u8>> {
    let length = u16::try_from(setup.len()).ok()?;
    let mut page = Vec::with_capacity(setup.len() + PAGE_MORE);
    page.extend([0x40, 0, 2]);
    page.extend(edition.to_be_bytes());
    page.push(0x41);
    page.extend(length.to_be_bytes());
    page.extend(setup);
    page.extend([0x7F, 0, 0]);
    Some(page)
}

impl Plan {
    /// The plan as a settings page of this edition. Refused with 55 outside the numbers.
    pub fn to_page(&self, edition: u16) -> Result<Vec<u8>, Refusal> {
        Ok(page(edition, &self.to_setup()?).expect("a setup has at most 780 bytes"))
    }
}
