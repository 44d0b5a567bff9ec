//! The benchmark's loads: lists of puts and takes that every side makes alike, and the same lists as sessions.
//!
//! They are those on which packet schedulers are commonly set side by side: equal weights and mixed ones, every flow backlogged or few of them, lengths
//! that are uniform from the shortest to the longest.

use crate::numbers::{self, TRAINS};
use crate::rng::Rng;
use crate::rules::State;
use crate::{session, setup};

/// The records of a lane in a steady load.
pub const DEPTH: usize = 16;
/// The requests of a full session.
pub const REQUESTS: usize = 1_000;
/// Lengths are uniform between these.
pub const LENGTHS: (u64, u64) = (64, 1_500);
/// Mixed weights, by turns; eight times their sum is 696.
const MIXED: [u8; 8] = [1, 2, 3, 5, 8, 13, 21, 34];
/// The equal weight: 64 lanes of it sum to 1,024.
const EQUAL: u8 = 16;

#[derive(Clone, Copy, Debug, PartialEq)]
pub enum Weights {
    Equal,
    Mixed,
}

#[derive(Clone, Copy, Debug, PartialEq)]
pub enum Fill {
    /// Every lane holds as many records; a pair takes one and puts the next one into the lane that was served.
    Steady,
    /// The same with as many as there is room for.
    Full,
    /// Few records are held in all, in lanes by chance; a pair puts one more and takes one.
    Sparse,
}

#[derive(Clone, Copy, Debug, PartialEq)]
pub struct Load {
    pub lanes: u8,
    pub weights: Weights,
    pub fill: Fill,
    /// Eight trains share each lane, and hold as many records each, or those of chance.
    pub shared: bool,
}

/// A put or a take, in the three bytes that the library of the inner calls reads: a lane, and a number, high byte first, of which the lowest 12 bits are a
/// length and the highest four a train; lane 64 stands for a take.
pub type Call = [u8; 3];
pub const TAKE: Call = [64, 0, 0];

fn put((lane, train): Queue, length: u64) -> Call {
    let length = u16::try_from(length).expect("at most 1,500");
    let [high, low] = (u16::from(train) << 12 | length).to_be_bytes();
    [lane, high, low]
}

pub fn queue_of(call: Call) -> Queue {
    (call[0], call[1] >> 4)
}

pub fn length_of(call: Call) -> u64 {
    u64::from(u16::from_be_bytes([call[1] % 16, call[2]]))
}

/// A lane and a train of it, 0 where it is not shared.
pub type Queue = (u8, u8);

/// A side of the benchmark: what makes a load's calls.
pub trait Line {
    fn put(&mut self, queue: Queue, length: u64);
    /// Where the record was that is handed out.
    fn take(&mut self) -> Queue;

    fn make(&mut self, calls: &[Call]) {
        for &call in calls {
            if call == TAKE {
                self.take();
            } else {
                self.put(queue_of(call), length_of(call));
            }
        }
    }
}

impl Line for State {
    fn put(&mut self, queue: Queue, length: u64) {
        plain_put(self, queue, length);
    }

    fn take(&mut self) -> Queue {
        plain_take(self)
    }
}

// Not inlined, so that callgrind can tell them from the load's own instructions.
#[inline(never)]
fn plain_put(state: &mut State, (lane, train): Queue, length: u64) {
    state.put_train(lane, train, 7, length).expect("a put that is accepted");
}

#[inline(never)]
fn plain_take(state: &mut State) -> Queue {
    let taken = state.take().expect("a record is held");
    (taken.lane, taken.train)
}

/// A load's calls: first the lanes are filled, then pairs follow. A longer list begins with a shorter one.
pub struct List {
    pub filling: Vec<Call>,
    pub pairs: Vec<Call>,
}

impl List {
    pub fn whole(&self) -> Vec<Call> {
        [&self.filling[..], &self.pairs[..]].concat()
    }
}

impl Load {
    /// The fifteen loads; one lane has no mixture.
    pub fn all() -> Vec<Load> {
        let mut all = Vec::new();
        for lanes in [1, 8, 64] {
            for weights in [Weights::Equal, Weights::Mixed] {
                for fill in [Fill::Steady, Fill::Full, Fill::Sparse] {
                    if lanes > 1 || weights == Weights::Equal {
                        all.push(Load { lanes, weights, fill, shared: false });
                    }
                }
            }
        }
        all
    }

    /// Six loads more, of lanes that trains share.
    pub fn shared() -> Vec<Load> {
        let of = |lanes| {
            [Fill::Steady, Fill::Sparse].map(|fill| Load {
                lanes,
                weights: Weights::Equal,
                fill,
                shared: true,
            })
        };
        [1, 8, 64].into_iter().flat_map(of).collect()
    }

    pub fn weight(&self, lane: u8) -> u8 {
        match self.weights {
            Weights::Mixed => MIXED[usize::from(lane % 8)],
            Weights::Equal => EQUAL,
        }
    }

    pub fn setup(&self) -> Vec<u8> {
        let mut bytes = vec![0x01, 0, 2, 0, 1];
        for lane in 0..self.lanes {
            bytes.extend([0x10, 0, 3, lane, 0, self.weight(lane)]);
            if self.shared {
                bytes.extend([0x12, 0, 1, lane]);
            }
        }
        bytes.extend([0x7F, 0, 0]);
        bytes
    }

    pub fn plain(&self) -> State {
        State::fresh(&setup::whole(&self.setup()).expect("a valid setup"))
    }

    /// The records that a sparse load holds in all between its pairs.
    pub fn sparse(&self) -> usize {
        usize::from(self.lanes / 8).max(2)
    }

    /// The records that each lane holds between the pairs of a steady or a full load.
    pub fn depth(&self) -> usize {
        if self.fill == Fill::Full {
            numbers::DEPTH
        } else {
            DEPTH
        }
    }

    /// The calls; the rules say which lane a take serves.
    pub fn list(&self, pairs: usize) -> List {
        self.list_of(self.depth(), pairs, &mut self.plain())
    }

    /// The calls for another line, which says by itself which lane a take serves.
    pub fn list_for(&self, line: &mut dyn Line, pairs: usize) -> List {
        self.list_of(self.depth(), pairs, line)
    }

    fn list_of(&self, depth: usize, pairs: usize, line: &mut dyn Line) -> List {
        let mut random = Rng::new(7);
        let trains = if self.shared { TRAINS } else { 1 };
        let mut accepted = |line: &mut dyn Line, queue: Option<Queue>| {
            let queue = queue.unwrap_or_else(|| {
                let lane = random.below(u64::from(self.lanes)) as u8;
                (lane, if self.shared { random.below(u64::from(TRAINS)) as u8 } else { 0 })
            });
            let length = random.between(LENGTHS.0, LENGTHS.1);
            line.put(queue, length);
            put(queue, length)
        };
        let filling = match self.fill {
            Fill::Steady | Fill::Full => (0..depth)
                .flat_map(|turn| (0..self.lanes).map(move |lane| (lane, (turn % usize::from(trains)) as u8)))
                .map(|queue| accepted(line, Some(queue)))
                .collect(),
            Fill::Sparse => (0..self.sparse()).map(|_| accepted(line, None)).collect(),
        };
        let mut list = List { filling, pairs: Vec::new() };
        for _ in 0..pairs {
            if self.fill != Fill::Sparse {
                let served = line.take();
                list.pairs.extend([TAKE, accepted(line, Some(served))]);
            } else {
                list.pairs.extend([accepted(line, None), TAKE]);
                line.take();
            }
        }
        list
    }

    /// Records in each lane of a session: with 64 lanes fewer than 16, as a session has at most 1,000 requests.
    fn session_depth(&self) -> usize {
        self.depth().min(450 / usize::from(self.lanes))
    }

    /// The pairs of a session of 1,000 requests.
    pub fn session_pairs(&self) -> usize {
        (REQUESTS - self.list_of(self.session_depth(), 0, &mut self.plain()).filling.len()) / 2
    }

    pub fn session(&self, pairs: usize) -> Vec<u8> {
        let calls = self.list_of(self.session_depth(), pairs, &mut self.plain()).whole();
        assert!(calls.len() <= REQUESTS);
        let mut bytes = self.setup();
        for call in calls {
            let ((lane, train), [high, low]) = (queue_of(call), [call[1] % 16, call[2]]);
            match call {
                TAKE => bytes.extend([session::TAKE, 0, 0]),
                _ if self.shared => {
                    bytes.extend([session::PUT_TRAIN, 0, 8, lane, train, 0, 0, 0, 7, high, low])
                }
                _ => bytes.extend([session::PUT, 0, 7, lane, 0, 0, 0, 7, high, low]),
            }
        }
        bytes.extend([0x7F, 0, 0]);
        bytes
    }
}

/// As the first cells of a table's row.
impl std::fmt::Display for Load {
    fn fmt(&self, f: &mut std::fmt::Formatter) -> std::fmt::Result {
        let weights = if self.weights == Weights::Equal { "equal" } else { "mixed" };
        let fill = match self.fill {
            Fill::Steady => "steady",
            Fill::Full => "full",
            Fill::Sparse => "sparse",
        };
        write!(f, "{} | {weights} | {fill}", self.lanes)
    }
}
