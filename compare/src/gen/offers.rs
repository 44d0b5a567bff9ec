//! Offers of settings pages among calls, and damage to the page's part of a table.

use super::setups;
use crate::calls::Call;
use crate::layout::part::{END, LAST, NEW, PLAN};
use crate::layout::{set_word, word};
use crate::pages::draw;
use crate::plans::driver::edit;
use crate::plans::words::lay;
use crate::rng::Rng;
use crate::rules::State;

/// A page for a table with these contents: mostly whole and of an edition a little above; else at an edge of 60, or damaged.
pub fn offer(rng: &mut Rng, state: &State) -> Call {
    let edition = edition(rng, state);
    let damaged = rng.once_in(6);
    let mut page = if damaged { draw::page(rng) } else { draw::fields(rng).concat() };
    // A damaged page may be without its edition.
    if page.len() > 5 && page[..3] == [0x40, 0, 2] && !(damaged && rng.once_in(4)) {
        page[3..5].copy_from_slice(&edition.to_be_bytes());
    }
    Call::Offer(page.into())
}

/// An edition on either side of those that a table has: most are a little above, so that pages are accepted again and again.
fn edition(rng: &mut Rng, state: &State) -> u16 {
    let (last, new) = (state.edition, state.page.as_ref().map_or(state.edition, |page| page.edition));
    let edges =
        [0, 1, last, last, last.saturating_sub(1), last.saturating_add(1), new, new, new.saturating_sub(1)];
    match rng.below(128) {
        0 => rng.pick(&[65_534, 65_535]),
        1..=40 => rng.pick(&edges),
        41..=60 => new.saturating_add(1),
        _ => new.saturating_add(rng.between(1, 300) as u16),
    }
}

/// One change of the page's part, told in words.
pub fn damage(rng: &mut Rng, bytes: &mut [u8]) -> String {
    let (last, new) = (word(bytes, LAST), word(bytes, NEW));
    let near = |rng: &mut Rng, other: u64, own: u64| {
        let bit = own ^ 1 << rng.below(64);
        let edges =
            [0, 1, other, other, other.wrapping_add(1), other.saturating_sub(1), 65_535, 65_536, bit, bit];
        rng.pick(&edges)
    };
    let (at, value) = match rng.below(8) {
        0 | 1 => (LAST, near(rng, new, last)),
        2 | 3 => (NEW, near(rng, last, new)),
        4 => {
            let at = END / 8 + rng.index((bytes.len() - END) / 8);
            (at, rng.word())
        }
        5 => {
            let at = PLAN / 8 + rng.index((END - PLAN) / 8);
            (at, word(bytes, at) ^ 1 << rng.below(64))
        }
        how => {
            // A page, mostly one above the last edition, whose plan is right, at an edge or beside it.
            let drawn = setups::setup(rng);
            lay(&drawn, &mut bytes[PLAN..END]);
            let edits = rng.pick(&[0, 1, 1, 2]);
            (0..edits).for_each(|_| edit(rng, &mut bytes[PLAN..END]));
            if how == 6 {
                return format!("a plan in the page's part, {edits} numbers of it changed");
            }
            (NEW, rng.pick(&[last.wrapping_add(1), last.wrapping_add(1), 65_535, last]))
        }
    };
    set_word(bytes, at, value);
    format!("word {at} = {value:#x}")
}
