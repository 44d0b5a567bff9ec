//! The cases of the plans' comparison: each drawn from the seed and its own number alone.

use super::words::{bytes, in_form, lay, plan, words, Reference, SIZE};
use super::{Depot, Refused};
use crate::driver::cases;
use crate::driver::lent::Lent;
use crate::driver::report::{hex, Found};
use crate::gen::{damage, setups};
use crate::numbers::WEIGHT_SUM;
use crate::rng::Rng;
use crate::run::book::kept;
use std::collections::BTreeMap;
use std::fmt;

/// Counts of a comparison.
#[derive(Clone, Debug, Default, PartialEq, Eq)]
pub struct Tally {
    pub cases: u64,
    pub read: u64,
    pub written: u64,
    /// By number.
    pub refused: BTreeMap<u64, u64>,
    /// Setups that were read and are in the form.
    pub in_form: u64,
    /// Setups that were read and have a shared lane.
    pub shared: u64,
    /// Areas that a host filled, and how many of them were plans.
    pub areas: u64,
    pub areas_good: u64,
}

kept!(Tally {
    sum: cases, read, written, in_form, shared, areas, areas_good;
    by_number: refused;
});

impl fmt::Display for Tally {
    fn fmt(&self, f: &mut fmt::Formatter) -> fmt::Result {
        write!(
            f,
            "plans: {} cases, {} setups read, {} of them in the form, {} with shared lanes, ",
            self.cases, self.read, self.in_form, self.shared
        )?;
        write!(f, "{} written", self.written)?;
        let refused: Vec<String> = self.refused.iter().map(|(number, n)| format!("{number}: {n}")).collect();
        write!(f, "\n  refused by {}", refused.join(", "))?;
        write!(f, "\n  areas that a host filled: {}, {} of them plans", self.areas, self.areas_good)
    }
}

impl Tally {
    fn heard(&mut self, answer: &Result<u64, Refused>) {
        if let Err(refused) = answer {
            *self.refused.entry(refused.number).or_default() += 1;
        }
    }
}

/// One case.
pub fn case<D: Depot>(depot: &mut D, rng: &mut Rng, tally: &mut Tally) -> Result<(), Found> {
    tally.cases += 1;
    if rng.once_in(2) {
        setup(depot, rng, tally)
    } else {
        filled(depot, rng, tally)
    }
}

/// A setup, right or wrong, read into an area; and written back from there.
fn setup<D: Depot>(depot: &mut D, rng: &mut Rng, tally: &mut Tally) -> Result<(), Found> {
    let drawn = setups::setup(rng);
    let input = match rng.below(9) {
        0 => damage::noise(rng),
        8 => {
            let mut fields = setups::fields(rng, &drawn);
            damage::shared(rng, &mut fields);
            fields.concat()
        }
        1 | 2 => {
            let fields = setups::fields(rng, &drawn);
            damage::setup(rng, fields)
        }
        3 | 4 => bytes(&drawn),
        _ => setups::bytes(rng, &drawn),
    };
    let mut lent = Lent::new(rng, SIZE);
    let length = if rng.once_in(8) { rng.pick(&[0, 1, 8, 512, 519]) } else { lent.bytes().len() };
    let mut right = lent.short(length).to_vec();
    let shown = || vec![format!("setup {}", hex(&input)), format!("an area of {length} bytes")];
    let given = depot.read(&input, lent.short(length));
    let answer = Reference.read(&input, &mut right);
    tally.heard(&answer);
    if given != answer {
        return Err(Found::new(format!("the unit says {given:?}, the rules say {answer:?}"), shown()));
    }
    if lent.short(length) != right {
        let theirs = hex(lent.short(length));
        return Err(Found::new(format!("the area differs: {theirs}, right is {}", hex(&right)), shown()));
    }
    lent.guarded().map_err(|what| Found::new(what, shown()))?;
    if answer.is_err() {
        return Ok(());
    }
    tally.read += 1;
    tally.shared += u64::from(plan(&right).is_some_and(|plan| plan.lanes.iter().any(|lane| lane.shared)));
    let back = write(depot, rng, &right, tally)?;
    let formed = in_form(&input);
    tally.in_form += u64::from(formed);
    match back {
        Some(back) if formed && back != input => {
            Err(Found::new(format!("it is written back as {}", hex(&back)), shown()))
        }
        _ => Ok(()),
    }
}

/// An area that a host filled, written; and what was written read again.
fn filled<D: Depot>(depot: &mut D, rng: &mut Rng, tally: &mut Tally) -> Result<(), Found> {
    let drawn = setups::setup(rng);
    let mut area = vec![0; SIZE];
    lay(&drawn, &mut area);
    for _ in 0..rng.pick(&[0, 0, 1, 1, 1, 2, 5]) {
        edit(rng, &mut area);
    }
    match rng.below(12) {
        0 => area.truncate(rng.pick(&[0, 8, 512, 519, 519])),
        1 => area.extend(rng.bytes(9)),
        _ => {}
    }
    tally.areas += 1;
    tally.areas_good += u64::from(plan(&area).is_some());
    let Some(setup) = write(depot, rng, &area, tally)? else {
        return Ok(());
    };
    let mut again = rng.bytes(SIZE);
    let answer = depot.read(&setup, &mut again);
    let lanes = words(&area[..SIZE])[1..].iter().filter(|word| **word != 0).count() as u64;
    if answer != Ok(lanes) || again != area[..SIZE] {
        let shown = vec![format!("area {}", hex(&area)), format!("setup {}", hex(&setup))];
        return Err(Found::new(format!("it is read again as {answer:?}, {}", hex(&again)), shown));
    }
    Ok(())
}

/// Writes into a buffer that is long enough, exact or too short; the setup, if there is one.
fn write<D: Depot>(
    depot: &mut D,
    rng: &mut Rng,
    area: &[u8],
    tally: &mut Tally,
) -> Result<Option<Vec<u8>>, Found> {
    let size = plan(area).map_or(40, |plan| bytes(&plan).len());
    let length = match rng.below(6) {
        0 => size - 1,
        1 => rng.index(size),
        2 | 3 => size,
        _ => size + rng.index(40),
    };
    let mut lent = Lent::new(rng, length);
    let mut right = lent.short(length).to_vec();
    let shown = || vec![format!("area {}", hex(area)), format!("a buffer of {length} bytes")];
    let given = depot.write(area, lent.short(length));
    let answer = Reference.write(area, &mut right);
    tally.heard(&answer);
    if given != answer {
        return Err(Found::new(format!("the unit says {given:?}, the rules say {answer:?}"), shown()));
    }
    if lent.short(length) != right {
        let theirs = hex(lent.short(length));
        return Err(Found::new(format!("the buffer differs: {theirs}, right is {}", hex(&right)), shown()));
    }
    lent.guarded().map_err(|what| Found::new(what, shown()))?;
    tally.written += u64::from(answer.is_ok());
    Ok(answer.ok().map(|size| right[..size as usize].to_vec()))
}

/// One change of an area: a number at an edge, or any bit.
pub fn edit(rng: &mut Rng, area: &mut [u8]) {
    let mut all = words(area);
    let lane = 1 + rng.index(64);
    let sum: u64 = all[1..].iter().map(|word| word & 0xFFFF).sum();
    let there = (1..65).filter(|at| all[*at] != 0).collect::<Vec<_>>();
    let held = if there.is_empty() { lane } else { rng.pick(&there) };
    match rng.below(14) {
        0 => all[rng.index(65)] ^= 1 << rng.below(64),
        1 => all[held] = all[held] & !0xFFFF | rng.pick(&[0, 1, 1_024, 1_025, 65_535]),
        2 => all[held] = all[held] & 0xFFFF | rng.pick(&[0, 63, 64, 1_500, 1_501, 65_535, 65_536 + 64]) << 16,
        3 => all[0] = all[0] & 0xFFFF | rng.pick(&[0, 63, 64, 65, 65, 255, 256, 65_536]) << 16,
        4 => all[0] = all[0] & !0xFFFF | rng.pick(&[0, 1, 2, 3, 256, 257, 65_535]),
        5 => all[lane] = rng.pick(&[64, 1_500]) << 16,
        // The sum at its edge.
        6 | 7 => {
            let over = rng.below(2);
            let left = (u64::from(WEIGHT_SUM) + over).saturating_sub(sum);
            all[held] += left;
        }
        8 => all[1..].fill(0),
        9 => all[held] = 0,
        10 => all[held] |= 1 << (32 + rng.below(32)),
        // A shared lane, there or not.
        12 => all[held] ^= 1 << 32,
        13 => all[lane] |= 1 << 32,
        _ => all[lane] = rng.between(1, 9) + (rng.between(64, 1_500) << 16),
    }
    for (bytes, word) in area.chunks_exact_mut(8).zip(all) {
        bytes.copy_from_slice(&word.to_le_bytes());
    }
}

/// The case of this number, with other random numbers than those of the other comparisons.
pub fn one<D: Depot>(depot: &mut D, seed: u64, number: u64, tally: &mut Tally) -> Result<(), Found> {
    case(depot, &mut Rng::of_case(seed ^ 0x0055_0056_5E70_0000, number), tally)
}

/// Cases from `first` on while `more` says so, with the case that shows a difference.
pub fn compare<D: Depot>(
    depot: &mut D,
    seed: u64,
    first: u64,
    more: impl FnMut(u64) -> bool,
    tally: &mut Tally,
) -> Result<(), (u64, Found)> {
    cases(first, more, |number| one(depot, seed, number, tally))
}
