//! The comparison itself: it finds no difference where there is none, and every slip.

use compare::driver::report::Tally;
use compare::driver::{self, clock, Budget};
use compare::pipes;
use compare::stand_in::{Slip, StandIn, ALL};
use compare::unit::{Reference, Unit};
use std::path::Path;

fn run<U: Unit>(mut unit: U, seed: u64, cases: u64) -> Tally {
    let mut tally = Tally::default();
    if let Err(difference) = driver::compare(&mut unit, seed, 0, Budget::Cases(cases), &mut tally) {
        panic!("{difference}");
    }
    tally
}

#[test]
fn the_reference_with_itself_and_with_the_stand_in() {
    let mut itself = run(Reference::default(), 5, 600);
    let other = run(StandIn::new(Slip::None), 5, 600);
    // The stand-in has no calls that show a table.
    assert!(itself.asked > 20_000 && other.asked == 0, "{itself}");
    itself.asked = 0;
    assert_eq!(itself, other, "the same seed gives the same cases");
    assert!(itself.calls > 100_000 && itself.inputs() > 5_000, "{itself}");
    assert!(itself.refused.iter().enumerate().all(|(at, count)| at == 4 || *count > 100), "{itself}");
    assert!(itself.refused_trains.iter().all(|count| *count > 100), "{itself}");
    assert!(itself.taken_of_trains > 1_000 && itself.train_ends > 10_000, "{itself}");
    assert!(itself.offers.iter().all(|count| *count > 100), "{itself}");
    assert!(itself.changes > 200 && itself.changes_by_take > 100, "{itself}");
    assert!(itself.taken_back > 500 && itself.refused[4] == 0, "{itself}");
    assert!(itself.words.iter().all(|count| *count > 10), "{itself}");
}

#[test]
fn every_slip_is_found() {
    for &slip in ALL {
        let mut tally = Tally::default();
        let found = driver::compare(&mut StandIn::new(slip), 7, 0, Budget::Cases(1_500), &mut tally);
        let difference = found.expect_err(&format!("{slip:?} is not found"));
        let again = driver::one(&mut StandIn::new(slip), 7, difference.case, &mut Tally::default());
        assert!(again.is_err(), "{slip:?} is not found again by its case alone");
    }
}

#[test]
fn a_difference_in_a_list_is_shown_by_a_short_list() {
    let slips = [Slip::CountsAllLanes, Slip::LookWrites, Slip::TiesToLaterLane, Slip::ForgetsFinish];
    for slip in slips {
        let lists = (0..).map(|case| driver::one(&mut StandIn::new(slip), 3, case, &mut Tally::default()));
        let shown: Vec<usize> = lists
            .take(60)
            .filter_map(Result::err)
            .filter(|difference| difference.found.shown_by.len() > 1)
            .map(|difference| difference.found.shown_by.len())
            .collect();
        let short = shown.iter().filter(|lines| **lines <= 20).count();
        let enough = !shown.is_empty() && 4 * short >= 3 * shown.len();
        assert!(enough && shown.iter().all(|lines| *lines <= 100), "{slip:?}: {shown:?}");
    }
}

#[test]
fn toward_the_clocks_far_end() {
    let mut tally = Tally::default();
    let times = clock::drive(&mut StandIn::new(Slip::None), 20_000, &mut tally).map_err(|found| found.what);
    assert_eq!((times, tally.calls), (Ok(0), 1 + 40_000 + 20 * 4 + 11));
    let slip = clock::drive(&mut StandIn::new(Slip::ClockBeforeNewStart), 20_000, &mut tally);
    assert!(slip.is_err(), "the clock stays behind the only lane");
}

#[test]
fn past_the_clocks_far_end() {
    let all = Ok(clock::TIMES);
    let times =
        clock::drive_near(&mut Reference::default(), &mut Tally::default()).map_err(|found| found.what);
    assert_eq!(times, all, "within ten pairs each time; the rest of the drive follows");
    let times = clock::drive_near(&mut StandIn::new(Slip::None), &mut Tally::default());
    assert_eq!(times.map_err(|found| found.what), all);
    for slip in [Slip::FarIsRefused, Slip::BackOfClockAlone, Slip::BackLeavesFinish] {
        let found = clock::drive_near(&mut StandIn::new(slip), &mut Tally::default());
        assert!(found.is_err(), "{slip:?}");
    }
}

#[test]
fn programs_by_pipe() {
    let reference = Path::new(env!("CARGO_BIN_EXE_reference"));
    let fed = pipes::compare(reference, 1, 0, 150).unwrap_or_else(|difference| panic!("{difference}"));
    assert!(fed > 50_000);
    let another = Path::new(env!("CARGO_BIN_EXE_compare"));
    assert!(pipes::compare(another, 1, 0, 1).is_err(), "a program that prints something else");
    assert!(pipes::compare(Path::new("./no-such-program"), 1, 0, 1).is_err());
}

#[test]
fn the_reference_program_at_the_edge_of_its_input() {
    let reference = Path::new(env!("CARGO_BIN_EXE_reference"));
    for (length, printed) in
        [(0, "no 1 0\n"), (32_768, "no 2 0\n"), (32_769, "no 18\n"), (200_000, "no 18\n")]
    {
        assert_eq!(
            pipes::output(reference, &vec![0; length]),
            Ok(printed.as_bytes().to_vec()),
            "{length} bytes"
        );
    }
}
