//! The cases of the sheets' comparison: each drawn from the seed and its own number alone.

use super::draw;
use super::text::{write as text_of, Reference};
use super::{Office, Refused};
use crate::driver::cases;
use crate::driver::lent::Lent;
use crate::driver::report::{hex, Found};
use crate::gen::setups;
use crate::plans::words::{lay, plan, words, SIZE};
use crate::rng::Rng;
use crate::run::book::kept;
use std::collections::BTreeMap;
use std::fmt;

/// Counts of a comparison.
#[derive(Clone, Debug, Default, PartialEq, Eq)]
pub struct Tally {
    pub cases: u64,
    pub read: u64,
    pub written: u64,
    /// By number.
    pub refused: BTreeMap<u64, u64>,
}

kept!(Tally {
    sum: cases, read, written;
    by_number: refused;
});

impl fmt::Display for Tally {
    fn fmt(&self, f: &mut fmt::Formatter) -> fmt::Result {
        write!(f, "sheets: {} cases, {} sheets read, {} written", self.cases, self.read, self.written)?;
        let refused: Vec<String> = self.refused.iter().map(|(number, n)| format!("{number}: {n}")).collect();
        write!(f, "\n  refused by {}", refused.join(", "))
    }
}

impl Tally {
    fn heard(&mut self, answer: &Result<u64, Refused>) {
        if let Err(refused) = answer {
            *self.refused.entry(refused.number).or_default() += 1;
        }
    }
}

/// One case.
pub fn case<O: Office>(office: &mut O, rng: &mut Rng, tally: &mut Tally) -> Result<(), Found> {
    tally.cases += 1;
    if rng.once_in(3) {
        filled(office, rng, tally)
    } else {
        sheet(office, rng, tally)
    }
}

/// A sheet as it is shown: its text where it is plain, else its bytes.
fn shown(sheet: &[u8]) -> String {
    match std::str::from_utf8(sheet) {
        Ok(text) if text.is_ascii() => format!("sheet {text:?}"),
        _ => format!("sheet {}", hex(sheet)),
    }
}

/// A sheet, right or wrong, read into an area; and written back from there as the same bytes.
fn sheet<O: Office>(office: &mut O, rng: &mut Rng, tally: &mut Tally) -> Result<(), Found> {
    let input = draw::sheet(rng);
    let mut lent = Lent::new(rng, SIZE);
    let length = if rng.once_in(8) { rng.pick(&[0, 1, 8, 512, 519]) } else { lent.bytes().len() };
    let mut right = lent.short(length).to_vec();
    let said = || vec![shown(&input), format!("an area of {length} bytes")];
    let given = office.read(&input, lent.short(length));
    let answer = Reference.read(&input, &mut right);
    tally.heard(&answer);
    if given != answer {
        return Err(Found::new(format!("the unit says {given:?}, the rules say {answer:?}"), said()));
    }
    if lent.short(length) != right {
        let theirs = hex(lent.short(length));
        return Err(Found::new(format!("the area differs: {theirs}, right is {}", hex(&right)), said()));
    }
    lent.guarded().map_err(|what| Found::new(what, said()))?;
    if answer.is_err() {
        return Ok(());
    }
    tally.read += 1;
    match write(office, rng, &right, tally)? {
        Some(back) if back != input => {
            Err(Found::new(format!("it is written back as {}", shown(&back)), said()))
        }
        _ => Ok(()),
    }
}

/// An area that a host filled, with framing bytes, shared lanes or numbers that are off now and then, written; and what was written read again.
fn filled<O: Office>(office: &mut O, rng: &mut Rng, tally: &mut Tally) -> Result<(), Found> {
    let drawn = if rng.once_in(3) { setups::setup(rng) } else { draw::plan(rng) };
    let mut area = vec![0; SIZE];
    lay(&drawn, &mut area);
    if rng.once_in(4) {
        let at = rng.index(SIZE);
        area[at] ^= 1 << rng.below(8);
    }
    if rng.once_in(12) {
        area.truncate(rng.pick(&[0, 8, 512, 519]));
    }
    let Some(text) = write(office, rng, &area, tally)? else {
        return Ok(());
    };
    let mut again = rng.bytes(SIZE);
    let answer = office.read(&text, &mut again);
    let lanes = words(&area[..SIZE])[1..].iter().filter(|word| **word != 0).count() as u64;
    if answer != Ok(lanes) || again[8..] != area[8..SIZE] {
        let said = vec![format!("area {}", hex(&area)), shown(&text)];
        return Err(Found::new(format!("it is read again as {answer:?}, {}", hex(&again)), said));
    }
    Ok(())
}

/// Writes into a buffer that is long enough, exact or too short; the sheet, if there is one.
fn write<O: Office>(
    office: &mut O,
    rng: &mut Rng,
    area: &[u8],
    tally: &mut Tally,
) -> Result<Option<Vec<u8>>, Found> {
    let size = plan(area).and_then(|plan| text_of(&plan)).map_or(40, |text| text.len());
    let length = match rng.below(6) {
        0 => size - 1,
        1 => rng.index(size),
        2 | 3 => size,
        _ => size + rng.index(40),
    };
    let mut lent = Lent::new(rng, length);
    let mut right = lent.short(length).to_vec();
    let said = || vec![format!("area {}", hex(area)), format!("a buffer of {length} bytes")];
    let given = office.write(area, lent.short(length));
    let answer = Reference.write(area, &mut right);
    tally.heard(&answer);
    if given != answer {
        return Err(Found::new(format!("the unit says {given:?}, the rules say {answer:?}"), said()));
    }
    if lent.short(length) != right {
        let theirs = hex(lent.short(length));
        return Err(Found::new(format!("the buffer differs: {theirs}, right is {}", hex(&right)), said()));
    }
    lent.guarded().map_err(|what| Found::new(what, said()))?;
    tally.written += u64::from(answer.is_ok());
    Ok(answer.ok().map(|size| right[..size as usize].to_vec()))
}

/// The case of this number, with other random numbers than those of the other comparisons.
pub fn one<O: Office>(office: &mut O, seed: u64, number: u64, tally: &mut Tally) -> Result<(), Found> {
    case(office, &mut Rng::of_case(seed ^ 0x0080_0081_0082_0000, number), tally)
}

/// Cases from `first` on while `more` says so, with the case that shows a difference.
pub fn compare<O: Office>(
    office: &mut O,
    seed: u64,
    first: u64,
    more: impl FnMut(u64) -> bool,
    tally: &mut Tally,
) -> Result<(), (u64, Found)> {
    cases(first, more, |number| one(office, seed, number, tally))
}
