//! The cases of the conversions' comparison: each drawn from the seed and its own number alone. An old table is read by itself: whether it was good, and
//! what it holds. Then
//!
//! - the converter's answer is that of the rules, 7 first; the old bytes stay, and for a refusal the new ones too;
//! - a converted table is good and holds what the old one holds, with turns as far as a call compares them; bytes past its size stay;
//! - takes in a row have the same answers from both tables up to the old one's first 10 (R7.6), and from the new one those of today's rules.

use super::{answer, draw, Converter, Refused};
use crate::calls::Taken;
use crate::driver::cases;
use crate::driver::lent::Lent;
use crate::driver::report::Found;
use crate::layout::{self, old, old::THEN, TABLE_SIZE};
use crate::numbers::{refusal, DEPTH, LANES};
use crate::rng::Rng;
use crate::run::book::kept;
use std::fmt;

/// Old tables of a case.
const TABLES: u64 = 6;
/// Takes after the old table's first 10.
const TAKES_ON: u64 = 3;

/// Counts of a comparison.
#[derive(Clone, Debug, Default, PartialEq, Eq)]
pub struct Tally {
    pub cases: u64,
    pub tables: u64,
    pub converted: u64,
    pub short: u64,
    pub not_good: u64,
    /// Takes that answered alike from both tables, and old tables that came to a 10.
    pub takes: u64,
    pub tens: u64,
}

kept!(Tally {
    sum: cases, tables, converted, short, not_good, takes, tens;
});

impl fmt::Display for Tally {
    fn fmt(&self, f: &mut fmt::Formatter) -> fmt::Result {
        write!(
            f,
            "conversions: {} cases, {} old tables, {} converted, refused by 7: {}, 10: {}",
            self.cases, self.tables, self.converted, self.short, self.not_good
        )?;
        write!(f, "\n  {} takes from both tables, {} old tables came to a 10 by takes", self.takes, self.tens)
    }
}

/// One case.
pub fn case<C: Converter>(converter: &mut C, rng: &mut Rng, tally: &mut Tally) -> Result<(), Found> {
    tally.cases += 1;
    (0..TABLES).try_for_each(|_| table(converter, rng, tally))
}

fn table<C: Converter>(converter: &mut C, rng: &mut Rng, tally: &mut Tally) -> Result<(), Found> {
    tally.tables += 1;
    let (bytes, mut how) = draw::table(rng);
    let mut old = Lent::new(rng, bytes.len());
    old.bytes()[..bytes.len()].copy_from_slice(&bytes);
    let mut new = Lent::new(rng, TABLE_SIZE);
    let lengths = (old_length(rng, &mut old), new_length(rng, &mut new));
    how.push(format!("an old table of {} bytes, {} bytes for the new one", lengths.0, lengths.1));
    how.push(format!("clauses that it breaks: {:?}", THEN.read(old.short(lengths.0)).broken));
    let converted = conversion(converter, &mut old, &mut new, lengths, tally);
    let result = converted.and_then(|converted| match converted {
        true => takes(converter, rng, &bytes, &mut new, tally),
        false => Ok(()),
    });
    result.map_err(|what| Found::new(what, how))
}

/// All that is lent, now and then longer than the table; or less, mostly by a byte.
fn old_length(rng: &mut Rng, old: &mut Lent) -> usize {
    match rng.below(24) {
        0 => THEN.size - 1,
        1 => rng.index(THEN.size),
        // A table of today's layout has more.
        2 => THEN.size,
        _ => old.bytes().len(),
    }
}

fn new_length(rng: &mut Rng, new: &mut Lent) -> usize {
    match rng.below(24) {
        0 => TABLE_SIZE - 1,
        1 => rng.index(TABLE_SIZE),
        2 => THEN.size,
        _ => new.bytes().len(),
    }
}

/// The conversion; whether there is a new table.
fn conversion<C: Converter>(
    converter: &mut C,
    old: &mut Lent,
    new: &mut Lent,
    lengths: (usize, usize),
    tally: &mut Tally,
) -> Result<bool, String> {
    let (old_before, new_before) = (old.copy(), new.copy());
    let expected = answer(old.short(lengths.0), new.short(lengths.1));
    let given = converter.convert(old.short(lengths.0), new.short(lengths.1));
    if given != expected {
        return Err(format!("the unit says {given:?}, the rules say {expected:?}"));
    }
    if !old.same(&old_before) {
        return Err("the old table was written".to_string());
    }
    old.guarded()?;
    new.guarded()?;
    if let Err(Refused { number, .. }) = expected {
        let count = if number == 7 { &mut tally.short } else { &mut tally.not_good };
        *count += 1;
        return if new.same(&new_before) { Ok(false) } else { Err("a refused conversion wrote".to_string()) };
    }
    tally.converted += 1;
    let held = THEN.read(old.short(lengths.0)).good().expect("a good old table");
    let reading = layout::read(&new.copy());
    if !reading.broken.is_empty() {
        return Err(format!("the new table is not good: {:?}", reading.broken));
    }
    match reading.state {
        Some(state) if state.alike(&held) => Ok(true),
        state => Err(format!("the new table holds {state:?}, the old one {held:?}")),
    }
}

/// Takes from both tables, mostly some and now and then all.
fn takes<C: Converter>(
    converter: &mut C,
    rng: &mut Rng,
    old: &[u8],
    new: &mut Lent,
    tally: &mut Tally,
) -> Result<(), String> {
    let most = if rng.once_in(12) { u64::from(LANES) * DEPTH as u64 } else { rng.below(24) };
    let mut old = old.to_vec();
    let mut left = most;
    let mut ten = false;
    while left > 0 {
        left -= 1;
        let then = if ten { Err(refusal::NOT_GOOD) } else { old::take(&mut old) };
        let now = layout::read(&new.copy()).good().map_or(Err(refusal::NOT_GOOD), |mut state| state.take());
        let given = converter.take(new.bytes());
        if given != now {
            return Err(format!("a take from the new table gave {}, the rules {}", told(given), told(now)));
        }
        if !ten && then == Err(refusal::NOT_GOOD) {
            ten = true;
            tally.tens += 1;
            left = left.min(TAKES_ON);
        }
        if ten {
            continue;
        }
        if then != given {
            return Err(format!("a take from the old table gave {}, the new {}", told(then), told(given)));
        }
        tally.takes += 1;
        if then == Err(refusal::NOTHING_HELD) {
            break;
        }
    }
    new.guarded()
}

fn told(taken: Result<Taken, u8>) -> String {
    taken.map_or_else(|number| format!("no {number}"), |taken| format!("{taken:?}"))
}

/// The case of this number, with other random numbers than those of the other comparisons.
pub fn one<C: Converter>(converter: &mut C, seed: u64, number: u64, tally: &mut Tally) -> Result<(), Found> {
    case(converter, &mut Rng::of_case(seed ^ 0x0016_0064_0000_0000, number), tally)
}

/// Cases from `first` on while `more` says so, with the case that shows a difference.
pub fn compare<C: Converter>(
    converter: &mut C,
    seed: u64,
    first: u64,
    more: impl FnMut(u64) -> bool,
    tally: &mut Tally,
) -> Result<(), (u64, Found)> {
    cases(first, more, |number| one(converter, seed, number, tally))
}
