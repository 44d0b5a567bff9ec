//! Each slip and each lapse, and the case that finds it.

use compare::driver::report::Tally;
use compare::driver::{self, Budget};
use compare::on_words::{lapses, OnWords};
use compare::stand_in::{StandIn, ALL};
use compare::unit::Unit;
use compare::{convert, halts, journal, plans, sheets};
use std::process::ExitCode;

/// A slip must be found within so many cases, far fewer than a short run has.
const SLIP: u64 = 1_500;

/// Tries them all; the status tells whether each was found.
pub fn all(seed: u64) -> ExitCode {
    let slips = ALL.iter().map(|&slip| (format!("{slip:?}"), found(seed, StandIn::new(slip))));
    let lapses = lapses().into_iter().map(|lapse| (format!("{lapse:?}"), found(seed, OnWords { lapse })));
    let mut missed = 0;
    let mut tried = 0;
    let desks = journal::slips::ALL.iter().map(|&slip| {
        let mut desk = journal::slips::Slipped(slip);
        let mut tally = journal::driver::Tally::default();
        let found = journal::driver::compare(&mut desk, seed, 0, |done| done < SLIP, &mut tally);
        (format!("{slip:?}"), found.err().map(|(case, _)| case))
    });
    let depots = plans::slips::ALL.iter().map(|&slip| {
        let mut depot = plans::slips::Slipped(slip);
        let mut tally = plans::driver::Tally::default();
        let found = plans::driver::compare(&mut depot, seed, 0, |done| done < SLIP, &mut tally);
        (format!("{slip:?}"), found.err().map(|(case, _)| case))
    });
    let offices = sheets::slips::ALL.iter().map(|&slip| {
        let mut office = sheets::slips::Slipped(slip);
        let mut tally = sheets::driver::Tally::default();
        let found = sheets::driver::compare(&mut office, seed, 0, |done| done < SLIP, &mut tally);
        (format!("{slip:?}"), found.err().map(|(case, _)| case))
    });
    let converters = convert::slips::slips().into_iter().map(|slip| {
        let mut converter = convert::slips::Slipped(slip);
        let mut tally = convert::driver::Tally::default();
        let found = convert::driver::compare(&mut converter, seed, 0, |done| done < SLIP, &mut tally);
        (format!("{slip:?}"), found.err().map(|(case, _)| case))
    });
    let profiles = halts::slips::ALL.iter().map(|&slip| {
        let mut halt = halts::slips::Slipped(slip);
        let mut tally = halts::driver::Tally::default();
        let found = halts::driver::compare(&mut halt, seed, 0, |done| done < SLIP, &mut tally);
        (format!("{slip:?}"), found.err().map(|(case, _)| case))
    });
    let beside = desks.chain(depots).chain(offices).chain(converters).chain(profiles);
    for (name, case) in slips.chain(lapses).chain(beside) {
        tried += 1;
        match case {
            Some(case) => println!("{name}: found in case {case}"),
            None => {
                println!("{name}: MISSED");
                missed += 1;
            }
        }
    }
    println!("{} slips found, {missed} missed", tried - missed);
    if missed == 0 {
        ExitCode::SUCCESS
    } else {
        ExitCode::FAILURE
    }
}

/// The case that finds a difference in this unit.
fn found<U: Unit>(seed: u64, mut unit: U) -> Option<u64> {
    let mut tally = Tally::default();
    let result = driver::compare(&mut unit, seed, 0, Budget::Cases(SLIP), &mut tally);
    result.err().map(|difference| difference.case)
}
