//! The worked examples that came with what was asked: the first session (R16.1 to R16.5) and the numbers of R16.7 to R16.10.

mod common;
use common::*;
use compare::calls::Taken;
use compare::fields::Fault;
use compare::numbers::refusal;
use compare::session::{program, walk, Stop};
use compare::setup;

const SESSION: &str = "0100020001 10000500020005DC 10000501010005DC 7F0000 \
    2000070000000001 03E8 2000070100000002 03E8 2000070000000003 01F4 230000 210000 210000 210000 210000 7F0000";

const OUTPUT: &str = "lanes 2\nput ok 0\nput ok 0\nput ok 1\nsets 12582912 0 0 0\n\
    take 0 1 1000\ntake 0 3 500\ntake 1 2 1000\nno 16\nend 8\n";

fn bytes(hex: &str) -> Vec<u8> {
    let digits: Vec<char> = hex.chars().filter(|c| !c.is_whitespace()).collect();
    let pairs = digits.chunks(2).map(|pair| pair.iter().collect::<String>());
    pairs.map(|pair| u8::from_str_radix(&pair, 16).expect("two digits")).collect()
}

#[test]
fn the_session_in_full() {
    let session = bytes(SESSION);
    assert_eq!(program(&session), OUTPUT);
    let outcome = walk(&session, 1_000);
    assert_eq!((outcome.result.answered, outcome.result.stop), (8, Stop::End));
    assert_eq!(outcome.result.written, OUTPUT.len() as u64);
}

#[test]
fn the_sessions_bytes_are_the_fields() {
    let requests = [put(0, 1, 1000), put(1, 2, 1000), put(0, 3, 500)].concat();
    let takes = TAKE.repeat(4);
    assert_eq!(bytes(SESSION), [two_lanes(), requests, SETS.to_vec(), takes, END.to_vec()].concat());
}

#[test]
fn m1_and_m2() {
    let mut state = fresh(&[(0, 512, 1500), (1, 256, 1500)]);
    assert_eq!(state.lane(0).map(|lane| (lane.units_per_byte, lane.group)), Some((2_048, 22)));
    assert_eq!(state.lane(1).map(|lane| (lane.units_per_byte, lane.group)), Some((4_096, 23)));
    for (lane, mark, length) in [(0, 1, 1000), (1, 2, 1000), (0, 3, 500)] {
        state.put(lane, mark, length).unwrap();
    }
    for _ in 0..3 {
        state.take().unwrap();
    }
    assert_eq!(state.clock, 2_560_000);
    assert_eq!(state.lane(0).unwrap().finish, 3_072_000);
    assert_eq!(state.lane(1).unwrap().finish, 4_096_000);

    state.put(0, 4, 100).unwrap();
    let lane = state.lane(0).unwrap();
    assert_eq!((lane.start, lane.finish, state.clock), (3_072_000, 3_276_800, 2_560_000));
    assert_eq!(state.lag(0), Ok(-512_000));
}

fn units_and_group(weight: u16, longest: u16) -> (i128, u32) {
    let state = fresh(&[(0, weight, longest)]);
    (state.lanes[0].units_per_byte, state.lanes[0].group)
}

#[test]
fn m3_m5_m6() {
    assert_eq!(units_and_group(1, 64), (1_048_576, 26));
    assert_eq!(units_and_group(1, 65).1, 27);
    assert_eq!(units_and_group(1_024, 64).1, 16);
    assert_eq!(units_and_group(1, 1_500).1, 31);
    assert_eq!(units_and_group(3, 64).0, 349_526);
}

#[test]
fn m4() {
    let mut state = fresh(&[(0, 1, 64)]);
    state.put(0, 1, 64).unwrap();
    assert_eq!(state.take(), Ok(Taken { lane: 0, train: 0, mark: 1, length: 64 }));
    assert_eq!(state.clock, 65_536);
    state.put(0, 2, 64).unwrap();
    assert_eq!(state.clock, 67_108_864);
}

#[test]
fn m7() {
    let mut state = fresh(&[(0, 512, 1500), (1, 256, 1500)]);
    for mark in 0..64 {
        assert_eq!(state.put(0, mark, 100), Ok(u64::from(mark)));
    }
    assert_eq!(state.put(0, 64, 100), Err(refusal::LANE_FULL));
    state.take().unwrap();
    assert_eq!(state.put(0, 64, 100), Ok(63));
}

#[test]
fn m8() {
    let full = [FORMAT, &lane(0, 1_000, 64), &lane(1, 24, 64), END].concat();
    assert_eq!(setup::whole(&full).map(|setup| setup.lanes.len()), Ok(2));
    let over = [FORMAT, &lane(0, 1_000, 64), &lane(1, 25, 64), END].concat();
    assert_eq!(setup::whole(&over), Err(Fault { number: 6, place: 17 }));
}

#[test]
fn the_waiting_lane_sees_fewer_than_17_884_bytes() {
    let lane = &fresh(&[(0, 512, 1500), (1, 256, 1500)]).lanes[0];
    assert_eq!((4 * lane.slot() + 1_536_000) / 1_024, 17_884);
}
