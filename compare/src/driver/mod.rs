//! The comparison: cases numbered from 0, each drawn from the seed and its own number alone, so that the first
//! difference can be run again by itself.
//!
//! - [`lists`] — a table is made and a list of calls answered on both sides; the laws are checked on the answers
//! - [`inputs`] — setups for `make` and sessions for `run`, valid, damaged and random, with lent areas at their edges
//! - [`tables`] — tables that no call made: whether they are good, and what each call makes of them
//! - [`lent`] — lent bytes at any address, with guard bytes around them
//! - [`shrink`] — a list that shows a difference made shorter
//! - [`clock`] — one lane driven to where the clock is taken back, through the calls alone
//! - [`waits`] — lists in which one lane runs ahead and the others flood, so that a record waits long
//! - [`tight`] — lists that drive one lane to demand 3's bound
//! - [`offers`] — settings pages offered to a table one after another
//! - [`tally`] — what was compared; [`report`] — the same told, and the reproducer of a difference

pub mod clock;
pub mod inputs;
pub mod lent;
pub mod lists;
pub mod offers;
pub mod report;
pub mod shrink;
pub mod tables;
pub mod tally;
pub mod tight;
pub mod waits;

use crate::rng::Rng;
use crate::unit::Unit;
use report::{Difference, Found, Tally};
use std::time::{Duration, Instant};

/// How much is to be compared.
#[derive(Clone, Copy, Debug)]
pub enum Budget {
    Cases(u64),
    Time(Duration),
}

/// Which cases a run has.
#[derive(Clone, Copy, Debug, PartialEq, Eq)]
pub enum Kind {
    Lists,
    Makes,
    Runs,
    Tables,
}

/// Compares the unit with the reference, case after case from `first` on, until the budget is spent or they differ.
pub fn compare<U: Unit>(
    unit: &mut U,
    seed: u64,
    first: u64,
    budget: Budget,
    tally: &mut Tally,
) -> Result<(), Difference> {
    compare_kinds(unit, seed, first, budget, |_| true, tally)
}

/// The same with the cases of some kinds alone; the others are left out.
pub fn compare_kinds<U: Unit>(
    unit: &mut U,
    seed: u64,
    first: u64,
    budget: Budget,
    kinds: impl Fn(Kind) -> bool,
    tally: &mut Tally,
) -> Result<(), Difference> {
    let begin = Instant::now();
    for case in first.. {
        let spent = match budget {
            Budget::Cases(cases) => case - first >= cases,
            Budget::Time(time) => begin.elapsed() >= time,
        };
        if spent {
            break;
        }
        one_of(unit, seed, case, &kinds, tally).map_err(|found| Difference { seed, case, found })?;
    }
    Ok(())
}

/// The case of this number, if it is one of these kinds; whether it is.
pub fn one_of<U: Unit>(
    unit: &mut U,
    seed: u64,
    case: u64,
    kinds: impl Fn(Kind) -> bool,
    tally: &mut Tally,
) -> Result<bool, Found> {
    let (kind, mut rng) = drawn(unit, seed, case);
    if !kinds(kind) {
        return Ok(false);
    }
    run(unit, kind, &mut rng, tally).map(|()| true)
}

/// One case.
pub fn one<U: Unit>(unit: &mut U, seed: u64, case: u64, tally: &mut Tally) -> Result<(), Difference> {
    compare(unit, seed, case, Budget::Cases(1), tally)
}

/// Cases from `first` on while `more` says so, with the case that shows a difference.
pub fn cases(
    first: u64,
    mut more: impl FnMut(u64) -> bool,
    mut one: impl FnMut(u64) -> Result<(), Found>,
) -> Result<(), (u64, Found)> {
    (first..)
        .take_while(|case| more(case - first))
        .try_for_each(|case| one(case).map_err(|found| (case, found)))
}

/// Lists that make a record wait; the case that differs is told.
pub fn compare_waits<U: Unit>(
    unit: &mut U,
    seed: u64,
    first: u64,
    more: impl FnMut(u64) -> bool,
    tally: &mut Tally,
) -> Result<(), (u64, Found)> {
    cases(first, more, |case| waits::case(unit, &mut Rng::of_case(seed, case), tally))
}

/// What a case is, and the numbers that it goes on with. A unit whose layout is not docs/TABLE.md's gets a list in place of tables.
fn drawn<U: Unit>(unit: &U, seed: u64, case: u64) -> (Kind, Rng) {
    let mut rng = Rng::of_case(seed, case);
    let kind = match rng.below(5) {
        2 => Kind::Makes,
        3 => Kind::Runs,
        4 if unit.documented_layout() => Kind::Tables,
        _ => Kind::Lists,
    };
    (kind, rng)
}

fn run<U: Unit>(unit: &mut U, kind: Kind, rng: &mut Rng, tally: &mut Tally) -> Result<(), Found> {
    tally.cases += 1;
    match kind {
        Kind::Lists => lists::case(unit, rng, tally),
        Kind::Makes => inputs::makes(unit, rng, tally),
        Kind::Runs => inputs::runs(unit, rng, tally),
        Kind::Tables => tables::case(unit, rng, tally),
    }
}
