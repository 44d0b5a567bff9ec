//! The cases of the pages' comparison: each drawn from the seed and its own number alone.

use super::reader::Reference;
use super::{draw, Page, Reads};
use crate::driver::cases;
use crate::driver::report::{hex, Found};
use crate::fields::Fault;
use crate::rng::Rng;
use std::collections::BTreeMap;
use std::fmt;

/// Counts of a comparison.
#[derive(Clone, Debug, Default, PartialEq, Eq)]
pub struct Tally {
    pub cases: u64,
    pub read: u64,
    /// Pages read that have fields that are skipped.
    pub skipped: u64,
    /// By number.
    pub refused: BTreeMap<u8, u64>,
}

impl fmt::Display for Tally {
    fn fmt(&self, f: &mut fmt::Formatter) -> fmt::Result {
        write!(f, "pages: {} cases, {} read, {} with skipped fields", self.cases, self.read, self.skipped)?;
        let refused: Vec<String> = self.refused.iter().map(|(number, n)| format!("{number}: {n}")).collect();
        write!(f, "\n  refused by {}", refused.join(", "))
    }
}

fn same(given: &Result<Page, Fault>, answer: &Result<Page, Fault>, page: &[u8]) -> Result<(), Found> {
    if given == answer {
        return Ok(());
    }
    let said = vec![format!("page {}", hex(page))];
    Err(Found::new(format!("the unit says {given:?}, the rules say {answer:?}"), said))
}

/// A page, right or wrong; one that is read also without its skipped fields.
pub fn case<R: Reads>(reader: &mut R, rng: &mut Rng, tally: &mut Tally) -> Result<(), Found> {
    tally.cases += 1;
    let page = draw::page(rng);
    let answer = Reference.read(&page);
    same(&reader.read(&page), &answer, &page)?;
    match &answer {
        Err(fault) => *tally.refused.entry(fault.number).or_default() += 1,
        Ok(_) => {
            tally.read += 1;
            let bare = draw::bare(&page);
            tally.skipped += u64::from(bare != page);
            same(&reader.read(&bare), &answer, &bare)?;
        }
    }
    Ok(())
}

/// The case of this number, with other random numbers than those of the other comparisons.
pub fn one<R: Reads>(reader: &mut R, seed: u64, number: u64, tally: &mut Tally) -> Result<(), Found> {
    case(reader, &mut Rng::of_case(seed ^ 0x0040_0041_007F_0000, number), tally)
}

/// Cases from `first` on while `more` says so, with the case that shows a difference.
pub fn compare<R: Reads>(
    reader: &mut R,
    seed: u64,
    first: u64,
    more: impl FnMut(u64) -> bool,
    tally: &mut Tally,
) -> Result<(), (u64, Found)> {
    cases(first, more, |number| one(reader, seed, number, tally))
}
