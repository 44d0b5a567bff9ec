//! Tables of 16 places: what they mean and whether they were good, worked by hand; what the converter makes of them; and the comparison finds every slip.

mod common;

use common::{fresh, two_lanes};
use compare::calls::{Answer, Call};
use compare::convert::driver::{compare, Tally};
use compare::convert::slips::{slips, Slip, Slipped};
use compare::convert::{convert, Refused};
use compare::layout::{self, old, old::THEN, Clause, TABLE_SIZE};
use compare::rules::State;
use compare::setup;
use compare::slots;

/// The first session (R16.3) up to its sets, as it was kept: lane 0 holds 1/1000 and 3/500 from place 15 of its ring on, lane 1 holds 2/1000 at place 4. Each
/// stands in list 0 of its group. Words that meant nothing are all ones.
const SESSION: &[(usize, u64)] = &[
    (0, 0),
    (1, 0b11),
    (4, 0),
    (80, 1_500 | 512 << 16 | 22 << 32 | 2_048 << 40),
    (81, 0),
    (82, 15 + 16 * 2),
    (84, 1_500 | 256 << 16 | 23 << 32 | 4_096 << 40),
    (85, 0),
    (86, 4 + 16),
    (336 + 15, 1 | 1_000 << 32),
    (336, 3 | 500 << 32),
    (352 + 4, 2 | 1_000 << 32),
    (1_360, 1 << 22 | 1 << 23),
    (1_361, 0),
    (1_382, 0),
    (1_383, 0),
    (1_398, 1),
    (1_399, 1),
];

const RINGS: &[(usize, u8)] =
    &[(11_776 + 192, 1), (11_776 + 224, 1), (12_288 + 64 * 192 + 63, 0), (12_288 + 64 * 224 + 63, 1)];

fn session(changes: &[(usize, u64)]) -> Vec<u8> {
    let mut bytes = vec![0xFF; 45_056];
    SESSION.iter().chain(changes).for_each(|(at, value)| layout::set_word(&mut bytes, *at, *value));
    RINGS.iter().for_each(|(at, value)| bytes[*at] = *value);
    bytes
}

fn broken(changes: &[(usize, u64)]) -> Vec<Clause> {
    THEN.read(&session(changes)).broken
}

fn of_session() -> State {
    let mut state = State::fresh(&setup::whole(&two_lanes()).unwrap());
    for (lane, mark, length) in [(0, 1, 1_000), (1, 2, 1_000), (0, 3, 500)] {
        state.put(lane, mark, length).unwrap();
    }
    state
}

#[test]
fn the_session_s_old_table() {
    let read = THEN.read(&session(&[])).good().expect("a good table");
    assert!(read.alike(&of_session()));
    let mut written = session(&[]);
    THEN.write(&read, &mut written);
    assert_eq!(written, session(&[]), "writing what was read changes nothing");
}

#[test]
fn the_rule_of_that_time() {
    use Clause::*;
    // 16 and 17 records, lengths 0, 1, longest and longest + 1, and of a place without a record any.
    let sixteen: Vec<(usize, u64)> = (0..16).map(|place| (352 + place, 64 << 32)).collect();
    assert_eq!(broken(&[&sixteen[..], &[(86, 3 + 16 * 16)]].concat()), []);
    assert_eq!(broken(&[&sixteen[..], &[(86, 3 + 16 * 17)]].concat()), [Records]);
    assert_eq!(broken(&[(336, 0)]), [Length]);
    assert_eq!(broken(&[(336, 1 << 32)]), []);
    assert_eq!(broken(&[(336, 1_500 << 32)]), []);
    assert_eq!(broken(&[(336, 1_501 << 32)]), [Length]);
    assert_eq!(broken(&[(337, 1_501 << 32)]), []);
    // No depth number.
    assert_eq!(broken(&[(3, 0)]), []);
    // The clock's end.
    let end = (1_u64 << 62) + (1 << 42);
    let far = |clock: u64| {
        let mut bytes = session(&[(0, clock), (81, clock), (85, clock)]);
        let state = THEN.read(&bytes).state.expect("contents");
        slots::write(&state, &mut bytes);
        THEN.read(&bytes).broken
    };
    assert_eq!(far(end - 1), []);
    assert_eq!(far(end), [Clock]);
    assert_eq!(THEN.read(&session(&[])[..45_055]).broken, [Long]);
}

#[test]
fn the_calls_of_that_time() {
    let mut state = fresh(&[(0, 512, 100), (1, 100, 100)]);
    let put = |lane: u8, length: u64| Call::Put { lane, mark: 7, length };
    for ahead in 0..16 {
        assert_eq!(old::answer(&mut state, &put(0, 50)), Answer::Put(ahead));
    }
    assert_eq!(old::answer(&mut state, &put(0, 50)), Answer::No(13));
    assert_eq!(old::answer(&mut state, &put(0, 101)), Answer::No(12), "12 before 13");
    assert_eq!(old::answer(&mut state, &put(2, 50)), Answer::No(11));
    assert_eq!(old::answer(&mut state, &put(1, 50)), Answer::Put(0));
}

#[test]
fn the_session_converted() {
    let old = session(&[]);
    let mut table = vec![0xFF; TABLE_SIZE + 1];
    assert_eq!(convert(&old, &mut table), Ok(()));
    assert_eq!((layout::word(&table, 3), table[TABLE_SIZE]), (64, 0xFF));
    let mut state = layout::read(&table).good().expect("a good table");
    assert!(state.alike(&of_session()));
    // Room for 64: 62 more, of which each tells how many are ahead of it.
    for ahead in 2..64 {
        assert_eq!(state.put(0, 9, 100), Ok(ahead));
    }
    assert_eq!(state.put(0, 9, 100), Err(13));
}

#[test]
fn refusals_in_their_order() {
    let (old, bad) = (session(&[]), session(&[(1, 0)]));
    let mut table = vec![7; TABLE_SIZE];
    assert_eq!(convert(&bad, &mut table[..TABLE_SIZE - 1]), Err(Refused::at(7, 0)), "7 before 10");
    assert_eq!(convert(&old, &mut table[..45_056]), Err(Refused::at(7, 0)));
    assert_eq!(convert(&bad, &mut table), Err(Refused::by(10)));
    assert_eq!(convert(&old[..45_055], &mut table), Err(Refused::by(10)), "an old table that is too short");
    assert!(table.iter().all(|byte| *byte == 7));
    assert_eq!(convert(&[&old[..], &[1, 2]].concat(), &mut table), Ok(()), "bytes past it are not looked at");
}

#[test]
fn takes_go_on_where_the_old_table_came_to_its_end() {
    let last = (1_u64 << 62) + (1 << 42) - 1;
    let mut old = session(&[(0, last), (81, last), (85, last)]);
    slots::write(&THEN.read(&old).state.expect("contents"), &mut old);
    let mut table = vec![0; TABLE_SIZE];
    assert_eq!(convert(&old, &mut table), Ok(()));
    let mut state = layout::read(&table).good().expect("a good table");
    let first = state.take();
    assert_eq!(old::take(&mut old), first);
    assert_eq!(old::take(&mut old), Err(10));
    assert!(state.take().is_ok());
}

#[test]
fn no_difference_where_there_is_none() {
    let mut tally = Tally::default();
    compare(&mut Slipped(Slip::None), 3, 0, |done| done < 600, &mut tally).expect("no slip");
    assert!(tally.converted > 1_000 && tally.not_good > 1_000 && tally.short > 200, "{tally}");
    assert!(tally.takes > 5_000 && tally.tens > 20, "{tally}");
}

#[test]
fn every_slip_is_found() {
    for slip in slips() {
        let mut tally = Tally::default();
        let found = compare(&mut Slipped(slip), 7, 0, |done| done < 1_500, &mut tally);
        let (case, _) = found.expect_err(&format!("{slip:?} is not found"));
        let again = compare(&mut Slipped(slip), 7, case, |done| done < 1, &mut Tally::default());
        assert!(again.is_err(), "{slip:?} is not found again by its case alone");
    }
}
