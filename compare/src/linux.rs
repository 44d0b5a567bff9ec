//! Linux's packet schedulers as lines of lanes, as `linux/build` makes them from Debian's sources (feature `linux`): beside them the benchmark sets the unit.

#![allow(unsafe_code)]

use crate::loads::{length_of, Call, Line, Load, Queue, LENGTHS, TAKE};
use std::ffi::{c_char, c_int, c_uint};

/// A line of `linux/line.c`.
#[repr(C)]
struct Raw {
    hidden: [u8; 0],
}

extern "C" {
    fn linux_line_make(
        scheduler: *const c_char,
        gathered: c_uint,
        weights: *const u32,
        lanes: c_uint,
    ) -> *mut Raw;
    fn linux_line_put(line: *mut Raw, lane: u32, length: u32) -> c_int;
    fn linux_line_take(line: *mut Raw) -> i64;
    fn linux_line_calls(line: *mut Raw, calls: *const u8, count: usize) -> usize;
    fn linux_line_free(line: *mut Raw);
}

#[derive(Clone, Copy, Debug, PartialEq)]
pub enum Scheduler {
    /// QFQ+ as Linux has it: up to eight classes of equal weight are an aggregate, which is scheduled as one, and take turns inside.
    Qfq,
    /// The same with one class in each aggregate, as on a device without a queue of its own: QFQ, as the unit has it.
    QfqAlone,
    /// Deficit round robin.
    Drr,
}

pub struct Linux {
    line: *mut Raw,
}

// SAFETY, for every call below: the pointer came from linux_line_make and is freed by nothing but drop; the weights are as many as is said.
impl Linux {
    pub fn fresh(load: Load, scheduler: Scheduler) -> Linux {
        let (name, gathered) = match scheduler {
            Scheduler::Qfq => (b"qfq\0", 8),
            Scheduler::QfqAlone => (b"qfq\0", 1),
            Scheduler::Drr => (b"drr\0", 1),
        };
        let weights: Vec<u32> = (0..load.lanes).map(|lane| load.weight(lane).into()).collect();
        let line =
            unsafe { linux_line_make(name.as_ptr().cast(), gathered, weights.as_ptr(), load.lanes.into()) };
        assert!(!line.is_null(), "{scheduler:?} refuses the lanes");
        Linux { line }
    }
}

impl Line for Linux {
    /// Linux knows no trains: a lane is one queue.
    fn put(&mut self, (lane, _): Queue, length: u64) {
        let dropped = unsafe { linux_line_put(self.line, lane.into(), length as u32) };
        assert!(dropped == 0, "a packet was dropped");
    }

    fn take(&mut self) -> Queue {
        let taken = unsafe { linux_line_take(self.line) };
        assert!(taken >= 0, "no packet was handed out");
        ((taken >> 16) as u8, 0)
    }

    /// In one call, as the unit's inner calls are made.
    fn make(&mut self, calls: &[Call]) {
        let failed = unsafe { linux_line_calls(self.line, calls.as_ptr().cast(), calls.len()) };
        assert!(failed == 0, "{failed} calls failed");
    }
}

impl Drop for Linux {
    fn drop(&mut self) {
        unsafe { linux_line_free(self.line) };
    }
}

/// That the scheduler works as it should on the shim: under a steady load each lane is sent its weight's share of the bytes, to within a hundredth and three
/// of the longest records, or what a round of sch_drr gives it, and what a lane was put first is handed out first.
pub fn assert_fair(load: Load, scheduler: Scheduler) {
    let list = load.list_for(&mut Linux::fresh(load, scheduler), 40_000);
    let mut line = Linux::fresh(load, scheduler);
    let lanes = usize::from(load.lanes);
    let (mut waiting, mut sent) = (vec![std::collections::VecDeque::new(); lanes], vec![0.0; lanes]);
    for call in list.whole() {
        if call != TAKE {
            line.make(&[call]);
            waiting[usize::from(call[0])].push_back(length_of(call));
            continue;
        }
        let taken = unsafe { linux_line_take(line.line) };
        let (lane, length) = ((taken >> 16) as usize, (taken & 0xFFFF) as u64);
        assert!(
            waiting[lane].pop_front() == Some(length),
            "{scheduler:?} hands out another packet than the lane's first"
        );
        sent[lane] += length as f64;
    }
    let weight = |lane| f64::from(load.weight(lane));
    let weights: f64 = (0..load.lanes).map(weight).sum();
    let least = (0..load.lanes).map(weight).fold(f64::INFINITY, f64::min);
    let all: f64 = sent.iter().sum();
    for (lane, bytes) in (0..load.lanes).zip(sent) {
        let due = all * weight(lane) / weights;
        let records = if scheduler == Scheduler::Drr { 1.0 + weight(lane) / least } else { 3.0 };
        let within = 0.01 * due + records * LENGTHS.1 as f64;
        assert!(
            (bytes - due).abs() <= within,
            "{scheduler:?}, {load}: lane {lane} was sent {bytes} of {due}"
        );
    }
}
