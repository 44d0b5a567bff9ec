//! What a table keeps of settings pages, behind everything that the calls of the rules know: the edition last taken, and the page that waits (docs/TABLE.md, "The
//! page's part").

use super::{set_word, word, Clause, Reading, KEPT};
use crate::pages::Page;
use crate::plans::words::{lay, plan, SIZE};

/// The word of the edition last taken, 0 before any.
pub const LAST: usize = KEPT / 8;
/// The word of the waiting page's edition, 0 where none waits.
pub const NEW: usize = LAST + 1;
/// The first byte of the waiting page's plan, in the words of a plan area.
pub const PLAN: usize = KEPT + 16;
/// Where the part ends. What is behind it means nothing.
pub const END: usize = PLAN + SIZE;

/// The edition last taken and the page that waits, where some lane holds a record or none does.
pub fn read(bytes: &[u8], held: bool, reading: &mut Reading) -> (u16, Option<Page>) {
    let (last, new) = (word(bytes, LAST), word(bytes, NEW));
    let fits = |edition: u64| edition <= u64::from(u16::MAX);
    reading.breaks(Clause::LastEdition, !fits(last));
    if new == 0 {
        return (last as u16, None);
    }
    reading.breaks(Clause::NewEdition, !fits(new));
    reading.breaks(Clause::EditionAbove, new <= last);
    reading.breaks(Clause::PageHeld, !held);
    let setup = plan(&bytes[PLAN..]);
    reading.breaks(Clause::PagePlan, setup.is_none());
    (last as u16, setup.map(|setup| Page { edition: new as u16, setup }))
}

/// The plan's words stay where no page waits.
pub fn write(edition: u16, page: Option<&Page>, bytes: &mut [u8]) {
    set_word(bytes, LAST, edition.into());
    set_word(bytes, NEW, page.map_or(0, |page| page.edition.into()));
    if let Some(page) = page {
        lay(&page.setup, &mut bytes[PLAN..END]);
    }
}
