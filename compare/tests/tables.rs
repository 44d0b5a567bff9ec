//! docs/TABLE.md's tables: what they mean and whether they are good, worked by hand; and the comparison of tables finds every lapse.

mod common;

use common::two_lanes;
use compare::calls::Call;
use compare::driver::report::Tally;
use compare::driver::{self, Budget, Kind};
use compare::gen::tables;
use compare::laws;
use compare::layout::{self, Clause, CLAUSES, NOW, TABLE_SIZE};
use compare::on_words::{lapses, Lapse, OnWords};
use compare::rng::Rng;
use compare::rules::State;
use compare::setup;
use compare::slots;

/// Four lengths of 1,500, less one each: what the places without a record hold.
const FREE: u64 = 1_499 * 0x0001_0001_0001_0001;
/// A half of a word that means nothing.
const ONES: u64 = 0xFFFF_FFFF;

/// Four free lengths but for one.
const fn free_but(quarter: u32, length: u64) -> u64 {
    FREE & !(0xFFFF << (16 * quarter)) | (length - 1) << (16 * quarter)
}

/// The first session (R16.3) up to its sets, word by word: lane 0 holds 1/1000 and 3/500 from place 63 of its ring on, lane 1 holds 2/1000 at place 4. Each
/// stands in list 0 of its group. Words that mean nothing are all ones.
const SESSION: &[(usize, u64)] = &[
    (0, 0),
    (1, 0b11),
    (3, 64),
    (4, 0),
    (80, 1_500 | 512 << 16 | 22 << 32 | 2_048 << 40),
    (81, 0),
    (82, 63 + 64 * 2),
    (84, 1_500 | 256 << 16 | 23 << 32 | 4_096 << 40),
    (85, 0),
    (86, 4 + 64),
    (336 + 15, free_but(3, 1_000)),
    (336, free_but(0, 500)),
    (352 + 1, free_but(0, 1_000)),
    (5_632 + 31, ONES | 1 << 32),
    (5_632, 3 | ONES << 32),
    (5_664 + 2, 2 | ONES << 32),
    (1_360, 1 << 22 | 1 << 23),
    (1_361, 0),
    (1_382, 0),
    (1_383, 0),
    (1_398, 1),
    (1_399, 1),
    // No page was taken, and none waits.
    (7_936, 0),
    (7_937, 0),
];

/// The rings of the two lists, 192 and 224: one lane in each, at place 63 where a first place of all ones leads.
const RINGS: &[(usize, u8)] =
    &[(11_776 + 192, 1), (11_776 + 224, 1), (12_288 + 64 * 192 + 63, 0), (12_288 + 64 * 224 + 63, 1)];

fn session() -> Vec<u8> {
    let mut bytes = vec![0xFF; TABLE_SIZE];
    (336..368).for_each(|at| layout::set_word(&mut bytes, at, FREE));
    SESSION.iter().for_each(|(at, value)| layout::set_word(&mut bytes, *at, *value));
    RINGS.iter().for_each(|(at, value)| bytes[*at] = *value);
    bytes
}

fn changed(changes: &[(usize, u64)]) -> Vec<u8> {
    let mut bytes = session();
    changes.iter().for_each(|(at, value)| layout::set_word(&mut bytes, *at, *value));
    bytes
}

fn broken(changes: &[(usize, u64)]) -> Vec<Clause> {
    layout::read(&changed(changes)).broken
}

/// The same, and the slot lists go along.
fn filed(changes: &[(usize, u64)]) -> Vec<Clause> {
    let mut bytes = changed(changes);
    if let Some(state) = layout::read(&bytes).state {
        slots::write(&state, &mut bytes);
    }
    layout::read(&bytes).broken
}

/// With bytes of the rings changed.
fn spoiled(changes: &[(usize, u64)], spots: &[(usize, u8)]) -> Vec<Clause> {
    let mut bytes = changed(changes);
    spots.iter().for_each(|(at, value)| bytes[*at] = *value);
    layout::read(&bytes).broken
}

#[test]
fn the_session_s_table() {
    let mut state = State::fresh(&setup::whole(&two_lanes()).unwrap());
    for (lane, mark, length) in [(0, 1, 1_000), (1, 2, 1_000), (0, 3, 500)] {
        state.put(lane, mark, length).unwrap();
    }
    let read = layout::read(&session()).good().expect("a good table");
    assert!(read.alike(&state));
    let mut written = session();
    layout::write(&read, &mut written);
    assert_eq!(written, session(), "writing what was read changes nothing");
}

#[test]
fn each_clause_from_both_sides() {
    use Clause::*;
    let slot = 1_u64 << 22;
    let end = (1_u64 << 62) + (1 << 44);
    // Both lanes far on, from the clock's last value; one below its end.
    let far = |clock: u64, s0: u64, s1: u64| filed(&[(0, clock), (81, s0), (85, s1)]);
    let last = end - 1;
    assert_eq!(far(last, last, last), []);
    assert_eq!(far(end, end, end), [Clock]);
    // S of lane 0: V + 2s - 1 and V + 2s.
    assert_eq!(filed(&[(81, 2 * slot - 1)]), []);
    assert_eq!(filed(&[(81, 2 * slot)]), [StartAhead]);
    // R of lane 0: V - 2s - 1,536,000 is too low, a slot more is not, and a clock one lower neither.
    let clock = 100 * slot + 1_536_000;
    assert_eq!(far(clock, 98 * slot + 7, clock), [StartBehind]);
    assert_eq!(far(clock, 99 * slot, clock), []);
    assert_eq!(far(clock - 1, 98 * slot, clock - 1), []);
    // Lane 1 idle, F = V + 2s - 1 and V + 2s.
    let idle = |finish: u64| filed(&[(86, 4), (85, finish)]);
    assert_eq!(idle(4 * slot - 1), []);
    assert_eq!(idle(4 * slot), [FinishAhead]);
    // Both lanes begin in the next slot.
    assert_eq!(filed(&[(81, slot), (85, 2 * slot - 1)]), []);
    assert_eq!(filed(&[(81, slot), (85, 2 * slot)]), [Eligible]);
    // Settings: weights sum to 1,024 and 1,025, longest 64 and 63, 1,500 and 1,501, no weight, a wrong c, a wrong group.
    let setting = |longest: u64, weight: u64, group: u64, c: u64| {
        let mut changes: Vec<(usize, u64)> = (352..368).map(|at| (at, 63 * 0x0001_0001_0001_0001)).collect();
        changes.push((84, layout::setting_of(longest, weight, group, c, false)));
        filed(&changes)
    };
    assert_eq!(setting(1_500, 512, 22, 2_048), []);
    assert_eq!(setting(1_500, 513, 22, 2_045), [WeightSum]);
    assert_eq!(setting(64, 256, 18, 4_096), []);
    assert_eq!(setting(63, 256, 18, 4_096), [Longest, Length, Places]);
    assert_eq!(setting(1_501, 256, 23, 4_096), [Longest]);
    assert_eq!(setting(1_500, 0, 23, 4_096), [Weight]);
    assert_eq!(setting(1_500, 3, 29, 349_526), []);
    assert_eq!(setting(1_500, 3, 29, 349_525), [UnitsPerByte]);
    assert_eq!(setting(1_500, 256, 24, 4_096), [Group]);
    assert_eq!(setting(1_500, 256, 22, 4_096), [Group]);
    // The same c and groups in an idle lane's word, where they mean nothing.
    let idle = |group: u64, c: u64| filed(&[(86, 4), (84, layout::setting_of(1_500, 256, group, c, false))]);
    assert_eq!((idle(23, 4_097), idle(24, 4_096), idle(0, 0)), (vec![], vec![], vec![]));
    // 64 and 65 records; lengths 1, longest, longest + 1 and 65,536.
    assert_eq!(broken(&[(86, 3 + 64 * 64)]), []);
    assert_eq!(broken(&[(86, 3 + 64 * 65)]), [Records]);
    assert_eq!(broken(&[(336, free_but(0, 1))]), []);
    assert_eq!(broken(&[(336, free_but(0, 1_500))]), []);
    assert_eq!(broken(&[(336, free_but(0, 1_501))]), [Length]);
    assert_eq!(broken(&[(336, free_but(0, 65_536))]), [Length]);
    // The same of a place without a record, which nobody asks of an idle lane.
    assert_eq!(broken(&[(336, free_but(1, 1)), (351, free_but(3, 1))]), []);
    assert_eq!(broken(&[(337, free_but(2, 1_501))]), [Places]);
    assert_eq!(broken(&[(350, free_but(3, 65_536))]), [Places]);
    assert_eq!(filed(&[(86, 4), (353, u64::MAX), (367, u64::MAX)]), []);
    // The depth number.
    for depth in [0, 16, 63, 65, 64 + (1 << 63)] {
        assert_eq!(broken(&[(3, depth)]), [Depth], "{depth}");
    }
    // No lane; a lane more whose words mean nothing.
    assert_eq!(broken(&[(1, 0), (1_360, 0)]), [Lanes]);
    assert!(!broken(&[(1, 0b111)]).is_empty());
    // A byte short.
    assert_eq!(layout::read(&session()[..TABLE_SIZE - 1]).broken, [Long]);
}

#[test]
fn each_clause_of_the_slot_lists() {
    use Clause::*;
    let slot = 1_u64 << 23;
    // The rings' bytes: how many stand in lane 0's and lane 1's list, and the lanes themselves.
    let (number0, number1) = (11_776 + 192, 11_776 + 224);
    let (lane0, lane1) = (12_288 + 64 * 192 + 63, 12_288 + 64 * 224 + 63);
    // A lane twice in a list; in a list of another group too; a lane that is none, is absent, or is idle.
    assert_eq!(spoiled(&[], &[(number0, 2), (lane0 - 63, 0)]), [Lists]);
    assert_eq!(spoiled(&[], &[(lane1, 0)]), [Lists]);
    assert_eq!(spoiled(&[], &[(lane1, 64)]), [Lists]);
    assert_eq!(spoiled(&[], &[(lane1, 1 + 64)]), [Lists]);
    assert_eq!(spoiled(&[], &[(lane1, 2)]), [Lists]);
    assert_eq!(broken(&[(86, 4)]), [Lists]);
    // A lane left out with its group; a list of no lane, of 65 and of 255.
    assert_eq!(broken(&[(1_360, 1 << 22)]), [Lists]);
    assert_eq!(spoiled(&[], &[(number1, 0)]), [Marks, Lists]);
    assert_eq!(spoiled(&[], &[(number1, 65)]), [Lists]);
    assert_eq!(spoiled(&[], &[(number1, 255)]), [Lists]);
    // Lane 1 in the next list, alone; with the start; with its S too, and there with a start 32 slots on.
    let next: &[(usize, u8)] = &[(number1 + 1, 1), (lane1 + 64, 1)];
    assert_eq!(spoiled(&[(1_399, 2)], next), [Lists]);
    assert_eq!(spoiled(&[(1_399, 2), (1_383, slot)], next), [Lists, Starts]);
    assert_eq!(spoiled(&[(1_399, 2), (1_383, slot), (85, slot)], next), []);
    assert_eq!(spoiled(&[(1_399, 2), (1_383, slot + 32 * slot), (85, slot)], next), [Starts]);
    // In both lists.
    assert_eq!(spoiled(&[(1_399, 3)], next), [Lists]);
    // A start off by a slot, and within its slot.
    assert_eq!(broken(&[(1_383, slot)]), [Starts]);
    assert_eq!(broken(&[(1_383, 1)]), [Starts]);
    // Marks that no list and no group has: a list without a lane, bit 32, group 15 and 32, a group without a list.
    assert_eq!(spoiled(&[(1_399, 3)], &[(number1 + 1, 0)]), [Marks]);
    assert_eq!(broken(&[(1_399, 1 | 1 << 32)]), [Marks]);
    assert_eq!(broken(&[(1_360, 1 << 15 | 1 << 22 | 1 << 23)]), [Marks]);
    assert_eq!(broken(&[(1_360, 1 << 22 | 1 << 23 | 1 << 32)]), [Marks]);
    assert_eq!(broken(&[(1_360, 1 << 22 | 1 << 23 | 1 << 24), (1_400, 0)]), [Marks]);
    // What was taken off the clock: 2^31 is a multiple of 32 slots of these groups.
    assert_eq!(broken(&[(1_361, 1 << 31)]), []);
    assert_eq!(broken(&[(1_361, 31 << 31)]), []);
    assert_eq!(broken(&[(1_361, 1 << 36)]), [Back]);
    assert_eq!(broken(&[(1_361, 1)]), [Back]);
}

#[test]
fn words_that_mean_nothing() {
    for at in [2]
        .into_iter()
        .chain(5..80)
        .chain([83, 87, 88, 335, 337, 350, 352, 354, 357, 368, 1_359])
        .chain(1_362..1_376)
        .chain([1_376, 1_381, 1_384, 1_391, 1_392, 1_397, 1_400, 1_407])
        .chain([5_633, 5_662, 5_664, 5_667, 7_679, 7_680, 8_191])
    {
        assert_eq!(broken(&[(at, 0)]), [], "word {at}");
    }
    // Bytes of rings without a mark, and places of a ring without a lane.
    for at in [
        11_264,
        11_264 + 193,
        11_775,
        11_776,
        11_776 + 193,
        12_287,
        12_288,
        12_288 + 64 * 192,
        45_055,
        65_535,
    ] {
        assert_eq!(spoiled(&[], &[(at, 0)]), [], "byte {at}");
    }
}

/// The laws' own account of a good table and this one agree on contents of every kind.
#[test]
fn two_accounts_of_a_good_table() {
    let mut rng = Rng::new(11);
    let mut agreed = [0, 0];
    for _ in 0..4_000 {
        let mut bytes = tables::laid(&mut rng, &NOW);
        tables::damage(&mut rng, &NOW, &mut bytes);
        let reading = layout::read(&bytes);
        let Some(state) = &reading.state else { continue };
        if reading.broken.iter().all(|clause| clause.may_be_lost() || *clause == Clause::Length) {
            assert_eq!(laws::good::check(state).is_ok(), reading.broken.is_empty(), "{:?}", reading.broken);
            agreed[usize::from(reading.broken.is_empty())] += 1;
        }
    }
    assert!(agreed.iter().all(|count| *count > 500), "{agreed:?}");
}

fn run(lapse: Lapse, cases: u64) -> (Tally, Result<(), driver::report::Difference>) {
    let mut tally = Tally::default();
    let tables = |kind| kind == Kind::Tables;
    let mut unit = OnWords { lapse };
    let result = driver::compare_kinds(&mut unit, 3, 0, Budget::Cases(cases), tables, &mut tally);
    (tally, result)
}

#[test]
fn nothing_differs_without_a_lapse() {
    let (tally, result) = run(Lapse::None, 1_500);
    result.unwrap_or_else(|difference| panic!("{difference}"));
    assert!(tally.tables_good > 2_000 && tally.tables - tally.tables_good > 2_000, "{tally}");
    assert!(tally.broken_alone.iter().all(|count| *count > 10), "{tally}");
    assert!(tally.tables_taken_back > 500 && tally.tables_lost > 5, "{tally}");
}

#[test]
fn every_lapse_is_found() {
    assert!(lapses().len() > CLAUSES.len());
    for lapse in lapses() {
        let (_, result) = run(lapse, 3_000);
        let difference = result.expect_err(&format!("{lapse:?} is not found"));
        let mut unit = OnWords { lapse };
        let again = driver::one(&mut unit, 3, difference.case, &mut Tally::default());
        assert!(again.is_err(), "{lapse:?} is not found again by its case alone");
    }
}

#[test]
fn the_clock_s_far_end_from_near_it() {
    let drive = |lapse| {
        driver::clock::drive_near(&mut OnWords { lapse }, &mut Tally::default()).map_err(|found| found.what)
    };
    assert_eq!(drive(Lapse::None), Ok(driver::clock::TIMES));
    for lapse in [Lapse::BackForgotten, Lapse::BackGrows, Lapse::BackLeavesStarts, Lapse::BackOfClockAlone] {
        assert!(drive(lapse).is_err(), "{lapse:?}");
    }
}

/// A table whose clock is lifted word by word is the one whose contents are lifted.
#[test]
fn a_table_lifted() {
    let up = 9 << 31;
    let mut bytes = session();
    layout::lift(&mut bytes, up);
    let read = layout::read(&bytes).good().expect("a good table");
    let mut state = layout::read(&session()).good().expect("a good table");
    state.lift(up.into());
    assert!(read.alike(&state));
    assert_eq!(read.back, 23 << 31, "2^36 less 9 times 2^31");
    layout::write(&state, &mut bytes);
    assert_eq!(layout::read(&bytes).broken, []);
}

#[test]
fn a_good_table_of_other_origin_may_lead_to_one_that_is_not() {
    // The clock's last value: a take moves it past the end, and the next call gives 10.
    let last = (1_u64 << 62) + (1 << 44) - 1;
    let mut bytes = session();
    [0, 81, 85].iter().for_each(|at| layout::set_word(&mut bytes, *at, last));
    slots::write(&layout::read(&bytes).state.expect("contents"), &mut bytes);
    let mut state = layout::read(&bytes).good().expect("a good table");
    assert_eq!(state.answer(&Call::Take).to_string(), "take 0 1 1000");
    layout::write(&state, &mut bytes);
    assert_eq!(layout::read(&bytes).broken, [Clause::Clock]);
}
