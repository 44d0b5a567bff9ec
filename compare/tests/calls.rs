//! Refusals 10 to 16 of the calls, their order, and the rules' smaller sentences.

mod common;
use common::*;
use compare::calls::Taken;
use compare::fields::Fault;
use compare::rules::{taken_off, State};
use compare::unit::{Reference, Unit};

fn taken(lane: u8, mark: u32, length: u64) -> Result<Taken, u8> {
    Ok(Taken { lane, train: 0, mark, length })
}

#[test]
fn lanes_that_are_not_in_the_setup() {
    let mut state = fresh(&[(2, 512, 1500)]);
    for lane in [0, 1, 3, 63, 64, 255] {
        assert_eq!(state.put(lane, 1, 100), Err(11));
        assert_eq!(state.put(lane, 1, 0), Err(11), "11 before 12");
        assert_eq!(state.lag(lane), Err(11));
    }
}

#[test]
fn lengths() {
    let mut state = fresh(&[(2, 512, 100)]);
    for length in [0, 101, 65_535, 65_536, 65_636, 1 << 32, u64::MAX] {
        assert_eq!(state.put(2, 1, length), Err(12), "{length}");
    }
    assert_eq!(state.put(2, 1, 1), Ok(0));
    assert_eq!(state.put(2, 1, 100), Ok(1));
}

#[test]
fn a_full_lane() {
    let mut state = fresh(&[(0, 512, 100), (1, 100, 100)]);
    for mark in 0..64 {
        assert_eq!(state.put(0, mark, 50), Ok(mark.into()));
    }
    assert_eq!(state.put(0, 64, 50), Err(13));
    assert_eq!(state.put(0, 64, 101), Err(12), "12 before 13");
    assert_eq!(state.put(1, 64, 50), Ok(0), "lanes share no room");
}

#[test]
fn how_many_are_ahead() {
    let mut state = fresh(&[(0, 512, 100), (1, 256, 100)]);
    assert_eq!([state.put(0, 1, 50), state.put(1, 2, 50), state.put(0, 3, 50)], [Ok(0), Ok(0), Ok(1)]);
    assert_eq!([state.put(0, 4, 101), state.put(2, 4, 50)], [Err(12), Err(11)], "a refused put tells none");
    assert_eq!(state.put(0, 4, 50), Ok(2));
    while state.take().unwrap().lane != 0 {}
    assert_eq!(state.put(0, 5, 50), Ok(2), "one of three has gone out");
}

#[test]
fn what_is_taken_off() {
    const FAR: i128 = 1 << 61;
    const STEP: i128 = 1 << 31;
    // 2^61 and 2^33 are multiples of 2^31 themselves.
    assert_eq!([0, 1 << 40, FAR - 1].map(taken_off), [0; 3]);
    assert_eq!([FAR, FAR + 1, FAR + STEP - 1].map(taken_off), [FAR - 4 * STEP; 3]);
    assert_eq!(taken_off(FAR + STEP), FAR - 3 * STEP);
    assert_eq!(taken_off(1 << 62), 2 * FAR - 4 * STEP, "where 14 was given");
}

/// Lane 0 holds a record, lanes 1 to 3 are idle with an F of long ago, of one below what is taken off, and ahead of the clock.
fn far_on() -> State {
    let mut state = fresh(&[(0, 512, 1500), (1, 256, 1500), (2, 128, 1500), (3, 64, 1500)]);
    state.put(0, 1, 100).unwrap();
    state.lift(1 << 61);
    state.clock += 5;
    let off = (1 << 61) - (1 << 33);
    for (lane, finish) in [(1, 7), (2, off - 1), (3, (1 << 61) + 9)] {
        state.lanes[lane].finish = finish;
    }
    state
}

#[test]
fn a_clock_that_is_taken_back() {
    let mut state = far_on();
    let before = state.clone();
    for (lane, length, number) in [(4, 100, 11), (1, 0, 12), (1, 1_501, 12)] {
        assert_eq!(state.put(lane, 2, length), Err(number));
    }
    assert_eq!(state, before, "a refused put takes nothing off");
    assert_eq!((state.lag(0), state.lag(1), state.lag(3)), (Ok(5), Ok(0), Ok(-4)));
    assert_eq!(state.look(), taken(0, 1, 100));
    assert_eq!(state.clock, before.clock, "nor does another call");
    // A put to a lane that holds records.
    assert_eq!(state.put(0, 2, 100), Ok(1));
    assert_eq!((state.clock, state.back), ((1 << 33) + 5, (1 << 61) - (1 << 33) - (1 << 61)));
    let lane = &state.lanes[0];
    assert_eq!((lane.start, lane.rounded_start, lane.finish), (1 << 33, 1 << 33, (1 << 33) + 204_800));
    let idle: Vec<i128> = state.lanes[1..].iter().map(|lane| lane.finish).collect();
    assert_eq!(idle, [0, 0, (1 << 33) + 9]);
    assert_eq!((state.lag(0), state.lag(1), state.lag(3)), (Ok(5), Ok(0), Ok(-4)), "as before");
    // The next one finds the clock early.
    assert_eq!((state.put(1, 3, 100), state.clock), (Ok(0), (1 << 33) + 5));
    assert_eq!(state.lanes[1].start, (1 << 33) + 5);
}

#[test]
fn a_full_lane_takes_nothing_back() {
    let mut state = far_on();
    state.clock -= 1 << 40;
    (1..64).for_each(|mark| assert_eq!(state.put(0, mark, 100), Ok(mark.into())));
    state.clock += 1 << 40;
    let before = state.clone();
    assert_eq!((state.put(0, 64, 100), state), (Err(13), before));
}

#[test]
fn a_take_takes_nothing_back() {
    let mut state = far_on();
    assert_eq!(state.take(), taken(0, 1, 100));
    assert_eq!(state.clock, (1 << 61) + 5 + 102_400);
    assert_eq!(state.restart(), Ok(()));
    assert_eq!((state.clock, state.back, state.put(0, 4, 100)), (0, 0, Ok(0)));
}

#[test]
fn nothing_held() {
    let mut state = fresh(&[(0, 512, 1500)]);
    assert_eq!((state.take(), state.look()), (Err(16), Err(16)));
    assert_eq!((state.sets(), state.lag(0)), ([0; 4], Ok(0)));
    state.put(0, 1, 100).unwrap();
    assert_eq!(state.restart(), Err(15));
    assert_eq!(state.look(), taken(0, 1, 100));
    assert_eq!(state.take(), taken(0, 1, 100), "look changes nothing");
    assert_eq!(state.take(), Err(16));
}

#[test]
fn an_idle_lane_keeps_its_finish() {
    let mut state = fresh(&[(0, 1, 1500)]);
    state.put(0, 1, 1500).unwrap();
    state.take().unwrap();
    let finish = 1_500 * 1_048_576;
    assert_eq!(state.lag(0), Ok(1_536_000 - finish), "V - max(F, V)");
    state.put(0, 2, 1500).unwrap();
    assert_eq!(i128::from(finish), state.lanes[0].start);
    assert_eq!(state.clock, 1_536_000, "R is 0, so V does not move");
    state.take().unwrap();
    state.restart().unwrap();
    assert_eq!(state, fresh(&[(0, 1, 1500)]), "the fresh table of the same setup");
}

#[test]
fn ties() {
    // Same group, same rounded finish: the lane that got its S earliest.
    let mut state = fresh(&[(0, 16, 64), (1, 16, 64), (2, 16, 64)]);
    for lane in [2, 0, 1] {
        state.put(lane, lane.into(), 1).unwrap();
        state.put(lane, lane.into(), 1).unwrap();
    }
    // A take gives the lane a new S, though its R stays the same.
    let lanes: Vec<u8> = (0..6).map(|_| state.take().unwrap().lane).collect();
    assert_eq!(lanes, [2, 0, 1, 2, 0, 1]);
}

#[test]
fn a_put_on_a_holding_lane_is_no_new_start() {
    let mut state = fresh(&[(0, 16, 64), (1, 16, 64)]);
    state.put(1, 1, 1).unwrap();
    state.put(0, 2, 1).unwrap();
    state.put(1, 3, 1).unwrap();
    assert_eq!(state.look(), taken(1, 1, 1));
}

/// Lane 0 is in group 17 and starts at 2^18, lane 1 in group 18 and starts below 2^18; both finish at 2^19. V is 2^18.
fn equal_finishes() -> State {
    let mut state = fresh(&[(0, 512, 64), (1, 256, 64), (2, 256, 64)]);
    assert_eq!(state.lanes.iter().map(|lane| lane.group).collect::<Vec<_>>(), [17, 18, 18]);
    for (lane, mark) in [(0, 1), (0, 2)] {
        state.put(lane, mark, 64).unwrap();
    }
    assert_eq!(state.take(), taken(0, 1, 64));
    assert_eq!(state.clock, 1 << 17, "V moved to the only R");
    assert_eq!(state.take(), taken(0, 2, 64));
    assert_eq!(state.clock, 3 << 16);
    for (lane, mark) in [(2, 3), (1, 4), (0, 5), (0, 6)] {
        state.put(lane, mark, 64).unwrap();
    }
    assert_eq!(state.sets(), [1 << 18, 1 << 17, 0, 0], "lane 0 starts above V");
    assert_eq!(state.take(), taken(2, 3, 64), "lane 2 got its S before lane 1");
    assert_eq!(state.clock, 1 << 18);
    state
}

#[test]
fn equal_finishes_go_to_the_lower_group() {
    let mut state = equal_finishes();
    assert_eq!(state.sets(), [1 << 17 | 1 << 18, 0, 0, 0], "an equal finish does not block");
    assert_eq!(state.take(), taken(0, 5, 64));
}

#[test]
fn blocked_groups() {
    let mut state = equal_finishes();
    state.take().unwrap();
    // Lane 0 starts at 3 * 2^17 and finishes at 5 * 2^17; lane 1 is eligible and finishes at 4 * 2^17.
    assert_eq!((state.clock, state.sets()), (5 << 16, [1 << 18, 0, 0, 1 << 17]));
    state.clock = 3 << 17;
    assert_eq!(state.sets(), [1 << 18, 0, 1 << 17, 0]);
    assert_eq!(state.take(), taken(1, 4, 64));
}

#[test]
fn tables_too_short_or_of_nothing() {
    let mut unit = Reference::default();
    let size = unit.table_size();
    let mut table = vec![0; size];
    assert_eq!(unit.take(&mut table), Err(10), "no table was made");
    assert_eq!(unit.make(&two_lanes(), &mut table[..size - 1]), Err(Fault { number: 7, place: 0 }));
    assert_eq!(
        unit.make(&[], &mut table[..size - 1]),
        Err(Fault { number: 7, place: 0 }),
        "7 before the fields"
    );
    assert_eq!(unit.make(&two_lanes(), &mut table), Ok(2));
    assert_eq!(unit.put(&mut table[..size - 1], 99, 0, 0), Err(10), "10 before 11 and 12");
    assert_eq!(unit.put(&mut table, 99, 0, 0), Err(11));
}
