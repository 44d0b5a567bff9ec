//! The benchmark's loads are what docs/PERFORMANCE.md says they are.

use compare::loads::{length_of, queue_of, Fill, Line, Load, Queue, Weights, DEPTH, REQUESTS, TAKE};
use compare::rules::State;
use compare::session::{self, Stop};
use std::collections::VecDeque;

fn held(state: &State) -> Vec<usize> {
    state.lanes.iter().map(|lane| lane.waiting.len()).collect()
}

fn every() -> Vec<Load> {
    [Load::all(), Load::shared()].concat()
}

#[test]
fn every_pair_leaves_as_many_records_as_the_load_says() {
    assert_eq!((Load::all().len(), Load::shared().len()), (15, 6));
    for load in every() {
        let list = load.list(300);
        let mut state = load.plain();
        state.make(&list.filling);
        for pair in list.pairs.chunks(2) {
            match load.fill {
                Fill::Steady => assert!(held(&state).iter().all(|&count| count == DEPTH)),
                Fill::Full => assert!(held(&state).iter().all(|&count| count == 64)),
                Fill::Sparse => assert_eq!(held(&state).iter().sum::<usize>(), load.sparse()),
            }
            state.make(pair);
        }
        assert_eq!(held(&state).len(), usize::from(load.lanes));
    }
    let of = |lanes| Load { lanes, weights: Weights::Equal, fill: Fill::Sparse, shared: false }.sparse();
    assert_eq!([of(1), of(8), of(64)], [2, 2, 8]);
}

#[test]
fn the_trains_of_a_steady_shared_lane_hold_two_records_each() {
    for load in Load::shared().into_iter().filter(|load| load.fill == Fill::Steady) {
        let mut state = load.plain();
        state.make(&load.list(300).whole());
        for lane in &state.lanes {
            let queues: Vec<usize> =
                (0..8).map(|train| lane.waiting.queue(train).map_or(0, |queue| queue.len())).collect();
            assert_eq!(queues, [2; 8]);
        }
    }
}

/// A line that hands out what it got first, whatever the lane.
#[derive(Default)]
struct Fifo(VecDeque<Queue>);

impl Line for Fifo {
    fn put(&mut self, queue: Queue, _: u64) {
        self.0.push_back(queue);
    }

    fn take(&mut self) -> Queue {
        self.0.pop_front().expect("a record is held")
    }
}

#[test]
fn a_steady_list_for_another_line_follows_what_that_line_serves() {
    for load in every().into_iter().filter(|load| load.fill != Fill::Sparse) {
        let list = load.list_for(&mut Fifo::default(), 300);
        let mut line = Fifo::default();
        line.make(&list.filling);
        for pair in list.pairs.chunks(2) {
            assert_eq!((pair[0], queue_of(pair[1])), (TAKE, line.take()));
            line.make(&pair[1..]);
        }
        // The rules serve these lanes in another order, but for one lane of a single queue.
        assert_eq!(list.pairs == load.list(300).pairs, load.lanes == 1 && !load.shared);
    }
}

#[test]
fn lengths_are_uniform_from_64_to_1500() {
    for load in every() {
        let pairs = load.list(20_000).pairs;
        let lengths: Vec<u64> = pairs.into_iter().filter(|&call| call != TAKE).map(length_of).collect();
        assert_eq!((lengths.iter().min(), lengths.iter().max()), (Some(&64), Some(&1_500)));
        let mean = lengths.iter().sum::<u64>() / lengths.len() as u64;
        assert!((770..795).contains(&mean), "{mean}");
    }
}

#[test]
fn a_longer_list_begins_with_a_shorter_one() {
    for load in every() {
        let [short, long] = [40, 90].map(|pairs| load.list(pairs).whole());
        assert!(long.starts_with(&short));
    }
}

#[test]
fn a_full_session_has_a_thousand_requests_and_none_is_refused() {
    for load in every() {
        let session = load.session(load.session_pairs());
        let run = session::run(&session, REQUESTS as u64, 1 << 17, 1 << 17, 64 * (REQUESTS + 2));
        assert_eq!(run.result.stop, Stop::Limit);
        assert_eq!(run.result.answered, REQUESTS as u64);
        assert!(!run.text.contains("no "));
    }
}
