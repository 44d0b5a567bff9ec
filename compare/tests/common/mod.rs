//! Inputs written field by field.
#![allow(dead_code)]

use compare::rules::State;
use compare::setup::{LanePlan, Setup};

pub const FORMAT: &[u8] = &[0x01, 0, 2, 0, 1];
pub const END: &[u8] = &[0x7F, 0, 0];
pub const TAKE: &[u8] = &[0x21, 0, 0];
pub const LOOK: &[u8] = &[0x22, 0, 0];
pub const SETS: &[u8] = &[0x23, 0, 0];
pub const RESTART: &[u8] = &[0x25, 0, 0];

pub fn lane(number: u8, weight: u16, longest: u16) -> Vec<u8> {
    let ([w1, w0], [l1, l0]) = (weight.to_be_bytes(), longest.to_be_bytes());
    vec![0x10, 0, 5, number, w1, w0, l1, l0]
}

pub fn short_lane(number: u8, weight: u16) -> Vec<u8> {
    let [w1, w0] = weight.to_be_bytes();
    vec![0x10, 0, 3, number, w1, w0]
}

pub fn put(lane: u8, mark: u32, length: u16) -> Vec<u8> {
    [&[0x20, 0, 7, lane][..], &mark.to_be_bytes(), &length.to_be_bytes()].concat()
}

pub fn lag(lane: u8) -> Vec<u8> {
    vec![0x24, 0, 1, lane]
}

/// The first session's setup (R16.1): lanes of weight 512 and 256, both with a longest of 1,500. 24 bytes.
pub fn two_lanes() -> Vec<u8> {
    [FORMAT, &lane(0, 512, 1500), &lane(1, 256, 1500), END].concat()
}

pub fn fresh(lanes: &[(u8, u16, u16)]) -> State {
    let plan =
        |&(number, weight, longest): &(u8, u16, u16)| LanePlan { number, weight, longest, shared: false };
    State::fresh(&Setup { format: 1, framing: 0, lanes: lanes.iter().map(plan).collect() })
}

/// A fresh table in which every lane is shared.
pub fn fresh_shared(lanes: &[(u8, u16, u16)]) -> State {
    let plan =
        |&(number, weight, longest): &(u8, u16, u16)| LanePlan { number, weight, longest, shared: true };
    State::fresh(&Setup { format: 1, framing: 0, lanes: lanes.iter().map(plan).collect() })
}

pub fn put_train(lane: u8, train: u8, mark: u32, length: u16) -> Vec<u8> {
    [&[0x26, 0, 8, lane, train][..], &mark.to_be_bytes(), &length.to_be_bytes()].concat()
}

pub fn shared(number: u8) -> Vec<u8> {
    vec![0x12, 0, 1, number]
}

pub fn framing(h: u8) -> Vec<u8> {
    vec![0x11, 0, 1, h]
}
