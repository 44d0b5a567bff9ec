//! The small halt: which setups and tables are its own, by hand; what a waiting lane sees; and the comparison finds every slip.

use compare::calls::{Answer, Call};
use compare::halts::driver::{compare, Tally};
use compare::halts::slips::{Slip, Slipped, ALL};
use compare::halts::{held, makes, Halt, Refused, LANES};
use compare::layout::{self, TABLE_SIZE};
use compare::pages::Page;
use compare::rules::State;
use compare::setup::Setup;

/// The halt's setup in a format, with some bytes behind the format field, and its last lane's number.
fn bytes(format: u8, behind: &[u8], last: u8) -> Vec<u8> {
    let mut bytes = vec![0x01, 0, 2, 0, format];
    bytes.extend(behind);
    for (lane, high, low) in [(0, 2, 0), (1, 1, 0), (2, 0, 128), (last, 0, 128)] {
        bytes.extend([0x10, 0, 5, lane, high, low, 1, 0]);
    }
    bytes.extend([0x7F, 0, 0]);
    bytes
}

fn halt() -> Setup {
    Setup { format: 2, framing: 0, lanes: LANES.to_vec() }
}

fn table(change: impl Fn(&mut State)) -> Vec<u8> {
    let mut state = State::fresh(&halt());
    change(&mut state);
    let mut table = vec![0; TABLE_SIZE];
    layout::write(&state, &mut table);
    table
}

#[test]
fn setups_that_are_the_halt_s() {
    assert_eq!(makes(&bytes(1, &[], 3), TABLE_SIZE).map(|setup| setup.lanes), Ok(LANES.to_vec()));
    assert_eq!(makes(&bytes(2, &[], 3), TABLE_SIZE).map(|setup| setup.lanes), Ok(LANES.to_vec()));
    assert_eq!(
        makes(&bytes(2, &[0x11, 0, 1, 0], 3), TABLE_SIZE).map(|setup| setup.lanes),
        Ok(LANES.to_vec())
    );
}

#[test]
fn setups_that_are_another_s() {
    let ninety = Err(Refused::by(90));
    assert_eq!(makes(&bytes(2, &[], 4), TABLE_SIZE), ninety, "the same weights in other lanes");
    assert_eq!(makes(&bytes(2, &[0x11, 0, 1, 1], 3), TABLE_SIZE), ninety, "framing bytes");
    let mut longer = bytes(2, &[], 3);
    longer[12] = 1;
    assert_eq!(makes(&longer, TABLE_SIZE), ninety, "a longest of 257");
    let mut shared = bytes(2, &[], 3);
    shared.splice(13..13, [0x12, 0, 1, 0]);
    assert_eq!(makes(&shared, TABLE_SIZE), ninety, "a shared lane");
    let short = [&[0x01, 0, 2, 0, 2][..], &[0x10, 0, 3, 0, 2, 0], &[0x7F, 0, 0]].concat();
    assert_eq!(makes(&short, TABLE_SIZE), ninety);
}

#[test]
fn refusals_in_their_order() {
    assert_eq!(makes(&bytes(2, &[], 4), TABLE_SIZE - 1), Err(Refused::at(7, 0)), "7 before 90");
    assert_eq!(makes(&bytes(3, &[], 4), TABLE_SIZE), Err(Refused::at(50, 3)), "the setup's own before 90");
    let mut more = bytes(2, &[], 3);
    more.splice(37..37, [0x10, 0, 5, 4, 0, 1, 1, 0]);
    assert_eq!(makes(&more, TABLE_SIZE), Err(Refused::at(6, 41)), "no weight is left for another lane");
}

#[test]
fn tables_that_are_the_halt_s() {
    assert!(held(&table(|_| {})).is_some());
    assert!(held(&table(|state| state.edition = 7)).is_some(), "an edition that was taken");
    let waits = |state: &mut State| {
        state.put(0, 1, 64).unwrap();
        state.page = Some(Page { edition: 8, setup: halt() });
    };
    assert!(held(&table(waits)).is_none(), "a page that waits, of the halt's own setup too");
    assert!(held(&table(|state| state.put(0, 1, 64).map(|_| ()).unwrap())).is_some());
    assert!(held(&table(|_| {})[..TABLE_SIZE - 1]).is_none());
    let mut other = vec![0; TABLE_SIZE];
    let lanes = LANES[..3].to_vec();
    layout::write(&State::fresh(&Setup { lanes, ..halt() }), &mut other);
    assert!(held(&other).is_none());
}

#[test]
fn the_calls() {
    let mut halt = Slipped(Slip::None);
    let mut table = vec![0; TABLE_SIZE];
    assert_eq!(halt.make(&bytes(1, &[], 3), &mut table), Ok(4));
    for lane in 0..4 {
        let put = Call::Put { lane, mark: lane.into(), length: 256 };
        assert_eq!(halt.answer(&mut table, &put), Answer::Put(0));
    }
    assert_eq!(halt.answer(&mut table, &Call::Put { lane: 0, mark: 9, length: 257 }), Answer::No(12));
    assert_eq!(halt.answer(&mut table, &Call::Put { lane: 4, mark: 9, length: 1 }), Answer::No(11));
    assert_eq!(halt.answer(&mut table, &Call::Restart), Answer::No(15));
    for lane in 0..4 {
        assert!(matches!(halt.answer(&mut table, &Call::Take), Answer::Taken(taken) if taken.lane == lane));
    }
    assert_eq!(halt.answer(&mut table, &Call::Take), Answer::No(16));
    assert_eq!(halt.answer(&mut table, &Call::Restart), Answer::Restarted);
}

#[test]
fn no_difference_where_there_is_none() {
    let mut tally = Tally::default();
    compare(&mut Slipped(Slip::None), 3, 0, |done| done < 600, &mut tally).expect("no slip");
    assert!(
        tally.made > 300 && tally.ninety > 300 && tally.own > 200 && tally.tables > 2 * tally.own,
        "{tally}"
    );
    assert!(tally.seen.iter().all(|bytes| *bytes > 0), "{tally}");
}

#[test]
fn every_slip_is_found() {
    for &slip in ALL {
        let mut tally = Tally::default();
        let found = compare(&mut Slipped(slip), 7, 0, |done| done < 1_500, &mut tally);
        let (case, _) = found.expect_err(&format!("{slip:?} is not found"));
        let again = compare(&mut Slipped(slip), 7, case, |done| done < 1, &mut Tally::default());
        assert!(again.is_err(), "{slip:?} is not found again by its case alone");
    }
}
