//! A page read: an edition, a setup and an end, in this order, with fields among them that are passed over.

use super::{Page, Reads, EDITION, END, SETTINGS, SKIPPED};
use crate::fields::Fault;
use crate::numbers::refusal;
use crate::setup;
use std::ops::Range;

pub struct Reference;

impl Reads for Reference {
    fn read(&mut self, page: &[u8]) -> Result<Page, Fault> {
        read(page)
    }
}

/// The tag at a place and where its value stands: 1 (header), 2, 3, 1 (value).
fn field(page: &[u8], place: usize) -> Result<(u8, Range<usize>), Fault> {
    let &[tag, high, low, ..] = &page[place..] else {
        return Err(Fault::at(refusal::CUT, place));
    };
    let length = usize::from(u16::from_be_bytes([high, low]));
    let fits = match tag {
        EDITION => length == 2,
        END => length == 0,
        SETTINGS | SKIPPED.. => true,
        _ => return Err(Fault::at(refusal::TAG, place)),
    };
    if !fits {
        return Err(Fault::at(refusal::LENGTH_OF_FIELD, place));
    }
    let value = place + 3..place + 3 + length;
    if value.end > page.len() {
        return Err(Fault::at(refusal::CUT, place));
    }
    Ok((tag, value))
}

pub fn read(page: &[u8]) -> Result<Page, Fault> {
    let mut edition = None;
    let mut setup = None;
    let mut place = 0;
    loop {
        let (tag, value) = field(page, place)?;
        let next = value.end;
        match (tag, edition, &setup) {
            (EDITION, None, None) => {
                edition = Some(u16::from_be_bytes([page[value.start], page[value.start + 1]]))
            }
            (SETTINGS, Some(_), None) => {
                let start = value.start;
                // The page's bytes are what a fault is counted in.
                let moved = |fault: Fault| Fault { place: fault.place + start as u64, ..fault };
                setup = Some(setup::whole(&page[value]).map_err(moved)?);
            }
            (SKIPPED.., Some(_), _) => {}
            (END, Some(edition), Some(setup)) => {
                if next < page.len() {
                    return Err(Fault::at(refusal::ORDER, next));
                }
                return Ok(Page { edition, setup: setup.clone() });
            }
            _ => return Err(Fault::at(refusal::ORDER, place)),
        }
        place = next;
    }
}
