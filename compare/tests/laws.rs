//! The laws on thousands of random lists of the reference, and that each law tells a list that breaks it.

mod common;
use common::*;
use compare::calls::{Answer, Call, Taken};
use compare::gen::{caller::Caller, setups};
use compare::laws::endless::{self, Endless};
use compare::laws::{compared::Compared, fairness::Fairness, good, groups, order::Order, Laws};
use compare::rng::Rng;
use compare::rules::{Lane, State, Waiting};

#[test]
fn random_lists() {
    let (mut checked, mut compared, mut trains) = (0, 0, 0);
    let mut blocked = 0;
    for seed in 0..3_000 {
        let mut rng = Rng::new(seed);
        let mut state = State::fresh(&setups::setup(&mut rng));
        let mut laws = Laws::new(&state);
        let mut caller = Caller::new(&mut rng);
        for _ in 0..rng.between(1, 400) {
            let call = caller.next(&mut rng, &state);
            let answer = state.answer(&call);
            caller.heard(answer);
            laws.step(&call, answer, &state).unwrap_or_else(|broken| panic!("seed {seed}: {broken}"));
            blocked += u32::from(state.sets()[2] != 0);
        }
        laws.end(&state).unwrap_or_else(|broken| panic!("seed {seed}: {broken}"));
        checked += laws.fairness.checked;
        compared += laws.compared.checked;
        trains += laws.trains.checked;
    }
    assert!(checked > 1_000_000, "demand 3 was checked at {checked} points");
    assert!(compared > 500_000, "two lanes were compared at {compared} points");
    assert!(trains > 20_000, "two trains were compared at {trains} points");
    assert!(blocked > 100, "{blocked} tables had an eligible group that is blocked");
}

/// Puts accepted to a lane less its records handed out, at a point of the list.
fn holds(list: &[(Call, Answer)], lane: u8, upto: usize) -> bool {
    let put = |(call, answer): &&(Call, Answer)| {
        matches!(call, Call::Put { lane: to, .. } if *to == lane) && matches!(answer, Answer::Put(_))
    };
    let sent = |(_, answer): &&(Call, Answer)| matches!(answer, Answer::Taken(t) if t.lane == lane);
    list[..upto].iter().filter(put).count() > list[..upto].iter().filter(sent).count()
}

/// Whether every stretch in which these lanes hold records keeps a law, which is told the bytes sent of each lane in it.
fn every_stretch(list: &[(Call, Answer)], lanes: &[u8], law: impl Fn(&[i128; 3]) -> bool) -> bool {
    let busy = |upto: usize| lanes.iter().all(|lane| holds(list, *lane, upto));
    (0..=list.len()).filter(|begin| busy(*begin)).all(|begin| {
        let mut sent = [0; 3];
        (begin..list.len()).take_while(|at| busy(at + 1)).all(|at| {
            if let Answer::Taken(taken) = list[at].1 {
                sent[usize::from(taken.lane)] += i128::from(taken.length);
            }
            law(&sent)
        })
    })
}

fn longest(fresh: &State) -> i128 {
    fresh.lanes.iter().map(|lane| i128::from(lane.plan.longest)).max().unwrap()
}

/// Demand 3 by its own words: every stretch, every lane, counted anew.
fn demand_3(fresh: &State, list: &[(Call, Answer)]) -> bool {
    fresh.lanes.iter().all(|lane| {
        every_stretch(list, &[lane.plan.number], |sent| {
            let own = lane.units_per_byte * sent[usize::from(lane.plan.number)];
            1_024 * sent.iter().sum::<i128>() < own + 4 * lane.slot() + 1_024 * longest(fresh)
        })
    })
}

/// Two busy lanes compared, by its own words: every stretch, every two lanes, counted anew.
fn two_lanes_compared(fresh: &State, list: &[(Call, Answer)]) -> bool {
    fresh.lanes.iter().all(|a| {
        fresh.lanes.iter().all(|b| {
            every_stretch(list, &[a.plan.number, b.plan.number], |sent| {
                let work = |lane: &Lane| lane.units_per_byte * sent[usize::from(lane.plan.number)];
                work(a) - work(b) < 4 * a.slot() + 4 * b.slot() + 2 * 1_024 * longest(fresh)
            })
        })
    })
}

/// An unfair line: takes go to any lane that holds a record, mostly to the last.
fn unfair(rng: &mut Rng, fresh: &State, calls: usize) -> Vec<(Call, Answer)> {
    let mut queues: [Vec<u64>; 3] = Default::default();
    let mut list = vec![];
    for _ in 0..calls {
        let lane = if rng.once_in(12) { rng.index(3) } else { 2 };
        list.push(if rng.once_in(2) || queues[lane].is_empty() {
            let length = rng.between(1, u64::from(fresh.lanes[lane].plan.longest));
            queues[lane].push(length);
            (Call::Put { lane: lane as u8, mark: 0, length }, Answer::Put(0))
        } else {
            let taken = Taken { lane: lane as u8, train: 0, mark: 0, length: queues[lane].remove(0) };
            (Call::Take, Answer::Taken(taken))
        });
    }
    list
}

#[test]
fn one_pass_finds_what_every_stretch_finds() {
    let (mut demand, mut compared) = ([0, 0], [0, 0]);
    for seed in 0..400 {
        let fresh = fresh(&[(0, 512, 64), (1, 256, 64), (2, 256, 1_500)]);
        let list = unfair(&mut Rng::new(seed), &fresh, 60);
        let mut law = Fairness::new(&fresh);
        let kept = list.iter().all(|(call, answer)| law.step(call, *answer).is_ok());
        assert_eq!(kept, demand_3(&fresh, &list), "seed {seed}");
        demand[usize::from(kept)] += 1;
        let mut law = Compared::new(&fresh);
        let kept = list.iter().all(|(call, answer)| law.step(call, *answer).is_ok());
        assert_eq!(kept, two_lanes_compared(&fresh, &list), "seed {seed}");
        compared[usize::from(kept)] += 1;
    }
    assert!(demand.iter().all(|count| *count > 20), "{demand:?} break and keep demand 3");
    assert!(compared.iter().all(|count| *count > 20), "{compared:?} break and keep the other");
}

/// Takes by turns, one record of each busy lane, whatever its weight: what the law finds.
fn by_turns(fresh: &State, takes: usize) -> Result<(), String> {
    let mut compared = Compared::new(fresh);
    let lanes: Vec<u8> = fresh.lanes.iter().map(|lane| lane.plan.number).collect();
    let put = |lane| Call::Put { lane, mark: 0, length: 1_000 };
    for &lane in lanes.iter().chain(&lanes) {
        compared.step(&put(lane), Answer::Put(0))?;
    }
    for &lane in lanes.iter().cycle().take(takes) {
        compared.step(&Call::Take, Answer::Taken(Taken { lane, train: 0, mark: 0, length: 1_000 }))?;
        compared.step(&put(lane), Answer::Put(1))?;
    }
    Ok(())
}

#[test]
fn the_comparison_of_two_lanes_is_lost_when_weights_are_not_looked_at() {
    // Equal weights: turns are fair.
    by_turns(&fresh(&[(0, 256, 1500), (1, 256, 1500)]), 10_000).unwrap();
    // 512 and 256: a turn costs lane 0 1,000 x 2,048 and lane 1 twice as much. The stretch from behind the first take has lane 1 served k times and lane 0
    // once less, a difference of (k + 1) x 2,048,000; the bound is 4 (2^22 + 2^23) + 2 x 1,536,000 = 53,403,648.
    let two = fresh(&[(0, 512, 1500), (1, 256, 1500)]);
    by_turns(&two, 2 * 25).unwrap();
    let broken = by_turns(&two, 2 * 26).unwrap_err();
    assert!(broken.starts_with("lanes 1 and 0 are both busy"), "{broken}");
}

#[test]
fn a_lane_that_runs_dry_ends_the_stretch() {
    let fresh = fresh(&[(0, 512, 1500), (1, 256, 1500)]);
    let mut compared = Compared::new(&fresh);
    let put = |lane| (Call::Put { lane, mark: 0, length: 1_500 }, Answer::Put(0));
    let take = |lane| (Call::Take, Answer::Taken(Taken { lane, train: 0, mark: 0, length: 1_500 }));
    let mut step = |(call, answer): (Call, Answer)| compared.step(&call, answer);
    step(put(0)).unwrap();
    step(put(1)).unwrap();
    // Lane 1 alone is served, and runs dry each time: no stretch has both busy.
    for _ in 0..1_000 {
        step(take(1)).unwrap();
        step(put(1)).unwrap();
    }
    // From here on it holds a record throughout.
    step(put(1)).unwrap();
    let served = (0..1_000).position(|_| step(take(1)).is_err() || step(put(1)).is_err());
    // 1,500 x 4,096 a record; the bound is 53,403,648: the ninth is too much.
    assert_eq!(served, Some(8));
}

#[test]
fn demand_3_is_lost_when_a_lane_is_shut_out() {
    let fresh = fresh(&[(0, 512, 1500), (1, 256, 1500)]);
    let mut fairness = Fairness::new(&fresh);
    let put = |lane| (Call::Put { lane, mark: 0, length: 1_000 }, Answer::Put(0));
    let take = |lane| (Call::Take, Answer::Taken(Taken { lane, train: 0, mark: 0, length: 1_000 }));
    let step = |fairness: &mut Fairness, (call, answer)| fairness.step(&call, answer);
    step(&mut fairness, put(0)).unwrap();
    // Lane 0 waits: fewer than 17,884 bytes of lane 1 may go out.
    for _ in 0..17 {
        step(&mut fairness, put(1)).unwrap();
        step(&mut fairness, take(1)).unwrap();
    }
    step(&mut fairness, put(1)).unwrap();
    assert!(step(&mut fairness, take(1)).is_err());
}

#[test]
fn records_out_of_order_or_invented() {
    let put = |mark| Call::Put { lane: 0, mark, length: 5 };
    let take = |mark, length| Answer::Taken(Taken { lane: 0, train: 0, mark, length });
    let mut order = Order::default();
    order.step(&put(1), Answer::Put(0)).unwrap();
    order.step(&put(2), Answer::Put(1)).unwrap();
    order.step(&put(3), Answer::No(13)).unwrap();
    assert!(order.end(&fresh(&[(0, 1, 64)])).is_err(), "two records are lost");
    assert!(order.step(&Call::Restart, Answer::Restarted).is_err());
    assert!(order.step(&Call::Take, take(2, 5)).is_err());

    let mut order = Order::default();
    order.step(&put(1), Answer::Put(0)).unwrap();
    assert!(order.step(&Call::Take, take(1, 6)).is_err());
    assert!(order.step(&Call::Take, take(1, 5)).is_err(), "handed out twice");
}

#[test]
fn a_number_ahead_that_is_not_the_lane_s() {
    let put = |lane| Call::Put { lane, mark: 7, length: 5 };
    let told = |before: &[u8], told: u64| {
        let mut order = Order::default();
        let mut held = [0; 2];
        for &lane in before {
            order.step(&put(lane), Answer::Put(held[usize::from(lane)])).unwrap();
            held[usize::from(lane)] += 1;
        }
        order.step(&put(0), Answer::Put(told)).is_ok()
    };
    assert!(told(&[], 0) && !told(&[], 1), "it does not count itself");
    assert!(told(&[0, 1, 0], 2) && !told(&[0, 1, 0], 3), "it does not count other lanes");
    assert!(!told(&[0, 1, 0], 1) && !told(&[0, 1, 0], 0));
}

#[test]
fn words_that_are_not_the_sets() {
    let mut state = fresh(&[(0, 512, 1500), (1, 256, 1500)]);
    assert!(groups::laws_of(&state, [1 << 22, 0, 0, 0]).is_err(), "nothing is held");
    state.put(0, 1, 1000).unwrap();
    state.put(1, 2, 1000).unwrap();
    groups::check(&state).unwrap();
    assert!(groups::laws_of(&state, [1 << 22, 0, 0, 0]).is_err(), "group 23 is missing");
    assert!(groups::laws_of(&state, [1 << 22 | 1 << 23, 1 << 23, 0, 0]).is_err(), "group 23 is named twice");
    assert!(groups::laws_of(&state, [1 << 23, 1 << 22, 0, 0]).is_err(), "the chosen lane is of group 22");
}

#[test]
fn tables_that_are_not_good() {
    let mut state = fresh(&[(0, 512, 1500), (1, 256, 1500)]);
    state.put(0, 1, 1000).unwrap();
    state.put(0, 2, 1000).unwrap();
    good::check(&state).unwrap();
    let two_slots = 2 << 22;
    let broken = |change: fn(&mut State)| {
        let mut other = state.clone();
        change(&mut other);
        good::check(&other).is_err()
    };
    assert!(broken(|state| state.clock = (1 << 62) + (1 << 44)));
    assert!(broken(|state| state.lanes[0].finish += 1));
    let second = |state: &mut State, length: u64| match &mut state.lanes[0].waiting {
        Waiting::Own(queue) => queue[1].length = length,
        Waiting::Shared(_) => unreachable!("the lane is not shared"),
    };
    for length in [0, 1_501] {
        let mut other = state.clone();
        second(&mut other, length);
        assert!(good::check(&other).is_err(), "{length} bytes");
    }
    assert!(broken(|state| state.lanes[0].rounded_start = 1), "no lane is eligible");
    assert!(broken(|state| state.lanes[1].finish = 2 << 23));
    assert!(!broken(|state| state.lanes[1].finish = (2 << 23) - 1));
    assert_eq!(two_slots + 1_536_000, 9_924_608);
    assert!(!broken(|state| state.clock = 9_924_607), "R above V - 2s - 1,536,000");
    assert!(broken(|state| state.clock = 9_924_608));
}

/// Two lanes of the greatest slot hold a record each, the second one behind the first in the turn; a third is idle.
fn beside_itself() -> (State, Endless) {
    let mut state = fresh(&[(0, 1, 1_500), (1, 1, 1_500), (2, 512, 1_500)]);
    for lane in [2, 1, 0] {
        state.put(lane, 1, 1_500).unwrap();
    }
    state.take().unwrap();
    state.lift(1 << 61);
    let endless = Endless::new(&state);
    (state, endless)
}

#[test]
fn an_endless_clock_gives_the_same() {
    let (mut state, mut endless) = beside_itself();
    let put = Call::Put { lane: 2, mark: 2, length: 64 };
    for call in [
        Call::Sets,
        put.clone(),
        Call::Lag { lane: 1 },
        Call::Sets,
        Call::Take,
        Call::Take,
        put,
        Call::Restart,
    ] {
        let answer = state.answer(&call);
        endless.step(&call, answer, &state).unwrap();
    }
    assert!(state.clock < 1 << 34, "the clock was taken back");
    endless::early(&state).unwrap();
    state.lift(1 << 61);
    endless::early(&state).unwrap();
    state.lift(1 << 44);
    assert!(endless::early(&state).is_err());
}

#[test]
fn what_an_endless_clock_would_not_give() {
    let off = (1 << 61) - (1 << 33);
    let wrongs: [fn(&mut State, i128); 7] = [
        |state, off| state.lower(off + (1 << 30)),
        |state, off| {
            state.lower(off);
            state.back += 1 << 31;
        },
        |state, off| state.clock -= off,
        |state, off| {
            state.lower(off);
            state.lanes[0].start += 1;
        },
        |state, off| {
            state.lower(off);
            state.lanes[1].finish += off;
        },
        |state, off| {
            state.lower(off);
            state.lanes[2].finish += off;
        },
        |state, off| {
            state.lower(off);
            state.lanes[0].since = 0;
        },
    ];
    let look = |state: &mut State, endless: &mut Endless| {
        let answer = state.answer(&Call::Sets);
        endless.step(&Call::Sets, answer, state)
    };
    let (mut state, mut endless) = beside_itself();
    state.lower(off);
    look(&mut state, &mut endless).unwrap();
    for (at, wrong) in wrongs.iter().enumerate() {
        let (mut state, mut endless) = beside_itself();
        wrong(&mut state, off);
        assert!(look(&mut state, &mut endless).is_err(), "{at}");
    }
    let (state, mut endless) = beside_itself();
    assert!(endless.step(&Call::Lag { lane: 1 }, Answer::Lag(1), &state).is_err(), "another answer");
    assert!(endless.step(&Call::Lag { lane: 1 }, Answer::No(14), &state).is_err(), "a refusal");
}
