//! Several trains in one lane (R18): turns, deficits, refusals, lines and tables, worked by hand.

mod common;
use common::*;
use compare::calls::{Answer, Call, Taken};
use compare::laws::{good, order::Order, trains};
use compare::layout::{self, trains::*, Clause};
use compare::rules::{State, Waiting};
use compare::session;

/// One shared lane of longest 100 and weight 512.
fn lane_0() -> State {
    fresh_shared(&[(0, 512, 100)])
}

/// Puts as (train, length); marks count from 1.
fn filled(mut state: State, puts: &[(u8, u64)]) -> State {
    for (mark, (train, length)) in (1..).zip(puts) {
        state.put_train(0, *train, mark, *length).unwrap();
    }
    state
}

/// All that is handed out, as (train, mark).
fn drained(mut state: State) -> Vec<(u8, u32)> {
    std::iter::from_fn(|| state.take().ok()).map(|taken| (taken.train, taken.mark)).collect()
}

fn deficits(state: &State) -> [u64; 8] {
    match &state.lanes[0].waiting {
        Waiting::Shared(trains) => {
            let deficits: Vec<u64> = trains.trains.iter().map(|train| train.deficit).collect();
            deficits.try_into().expect("eight trains")
        }
        Waiting::Own(_) => panic!("the lane is shared"),
    }
}

#[test]
fn turns() {
    // Train 5 sends 100 and has nothing left. Train 2 sends 60 and keeps 40, which does not cover the next 60; with its next turn it has 140 and sends two.
    let state = filled(lane_0(), &[(5, 100), (5, 100), (2, 60), (2, 60), (2, 60)]);
    assert_eq!(drained(state), [(5, 1), (2, 3), (5, 2), (2, 4), (2, 5)]);
}

#[test]
fn deficits_call_by_call() {
    let mut state = lane_0();
    assert_eq!(deficits(&state), [0; 8]);
    state.put_train(0, 3, 1, 100).unwrap();
    assert_eq!(deficits(&state), [0, 0, 0, 100, 0, 0, 0, 0], "its turn begins");
    state.put_train(0, 1, 2, 30).unwrap();
    state.put_train(0, 1, 3, 80).unwrap();
    state.put_train(0, 3, 4, 1).unwrap();
    assert_eq!(deficits(&state), [0, 0, 0, 100, 0, 0, 0, 0], "a train that starts has 0 until its turn");
    state.take().unwrap();
    assert_eq!(deficits(&state), [0, 100, 0, 0, 0, 0, 0, 0], "0 does not cover 1, so train 1's turn begins");
    state.take().unwrap();
    assert_eq!(deficits(&state), [0, 70, 0, 100, 0, 0, 0, 0], "70 does not cover 80, and the rest is kept");
    state.take().unwrap();
    assert_eq!(deficits(&state), [0, 170, 0, 0, 0, 0, 0, 0], "train 3 is empty and has lost its 99");
    state.take().unwrap();
    assert_eq!(deficits(&state), [0; 8]);
    assert_eq!(state.take(), Err(16));
}

#[test]
fn a_train_alone() {
    // One train alone begins its next turn at once: it sends everything in order.
    let mut state = filled(lane_0(), &[(4, 70), (4, 70), (4, 70)]);
    state.take().unwrap();
    assert_eq!(deficits(&state)[4], 130);
    assert_eq!(drained(state), [(4, 2), (4, 3)]);
}

#[test]
fn the_first_record_stays() {
    let mut state = filled(lane_0(), &[(6, 50), (6, 60)]);
    let first = state.look();
    for train in 0..8 {
        state.put_train(0, train, 9, 1).unwrap();
        assert_eq!(state.look(), first, "a put for train {train}");
    }
    // Those that joined meanwhile go before train 6's second record, whose 50 bytes left do not cover 60.
    let all = drained(state);
    assert_eq!(all[0], (6, 1));
    assert_eq!(all[1..8].iter().map(|taken| taken.0).collect::<Vec<_>>(), [0, 1, 2, 3, 4, 5, 7]);
    assert_eq!(all[8..], [(6, 2), (6, 9)]);
}

#[test]
fn refusals() {
    let mut state = State::fresh(
        &compare::setup::whole(&[FORMAT, &lane(0, 512, 100), &shared(0), &lane(1, 256, 100), END].concat())
            .unwrap(),
    );
    assert_eq!(state.put_train(2, 8, 1, 0), Err(11), "11 before 70");
    for train in [8, 9, 128, 255] {
        assert_eq!(state.put_train(0, train, 1, 0), Err(70), "70 before 12");
    }
    for train in [1, 7, 8, 255] {
        assert_eq!(state.put_train(1, train, 1, 0), Err(70), "a lane that is not shared has train 0 alone");
    }
    assert_eq!(state.put_train(0, 7, 1, 101), Err(12));
    for mark in 0..8 {
        assert_eq!(state.put(0, mark, 10), Ok(mark.into()), "0x20 means train 0");
    }
    assert_eq!([state.put(0, 8, 10), state.put_train(0, 0, 8, 10)], [Err(71); 2]);
    assert_eq!(state.put(0, 8, 0), Err(12), "12 before 71");
    assert_eq!(state.put_train(0, 1, 8, 10), Ok(0), "trains share no room");
    for mark in 0..64 {
        assert_eq!(state.put_train(1, 0, mark, 10), Ok(mark.into()));
    }
    assert_eq!([state.put(1, 64, 10), state.put_train(1, 0, 64, 10)], [Err(13); 2]);
}

#[test]
fn all_sixty_four() {
    let mut state = lane_0();
    for train in 0..8 {
        (0..8).for_each(|ahead| assert_eq!(state.put_train(0, train, 1, 100), Ok(ahead)));
        assert_eq!(state.put_train(0, train, 1, 100), Err(71));
    }
    let order: Vec<u8> = drained(state).iter().map(|taken| taken.0).collect();
    assert_eq!(order, (0..8).collect::<Vec<u8>>().repeat(8));
}

#[test]
fn restart_keeps_the_trains() {
    let mut state = filled(lane_0(), &[(5, 100)]);
    assert_eq!(state.restart(), Err(15));
    state.take().unwrap();
    state.restart().unwrap();
    assert_eq!(state, lane_0());
    assert_eq!(state.put_train(0, 7, 1, 1), Ok(0));
}

/// Before the stretch train 0 is left with 63 and train 1 with nothing; train 0's turn begins, with 127.
#[test]
fn as_far_apart_as_two_trains_come() {
    let fresh = fresh_shared(&[(0, 512, 64)]);
    let puts = [(0, 1), (0, 64), (0, 63), (0, 64), (0, 64), (1, 64), (1, 1), (1, 64)];
    let mut state = fresh.clone();
    let mut law = trains::Even::new(&fresh);
    let mut step = |state: &mut State, call: Call| {
        let answer = state.answer(&call);
        law.step(&call, answer).unwrap();
        answer
    };
    for (train, length) in puts {
        step(&mut state, Call::PutTrain { lane: 0, train, mark: 1, length });
    }
    for _ in 0..2 {
        step(&mut state, Call::Take);
    }
    let sent: Vec<(u8, u64)> = (0..4)
        .map(|_| match step(&mut state, Call::Take) {
            Answer::Taken(taken) => (taken.train, taken.length),
            other => panic!("{other}"),
        })
        .collect();
    assert_eq!(sent, [(0, 64), (0, 63), (1, 1), (0, 64)]);
    assert_eq!(
        (law.closest().of(1_000), trains::bound(64)),
        (1_000, 190),
        "191 bytes against 1: the bound is reached"
    );
}

#[test]
fn trains_that_are_too_far_apart() {
    let mut law = trains::Even::new(&fresh_shared(&[(0, 512, 64)]));
    let put = |train| Call::PutTrain { lane: 0, train, mark: 1, length: 64 };
    let taken = |train, length| Answer::Taken(Taken { lane: 0, train, mark: 1, length });
    law.step(&put(0), Answer::Put(0)).unwrap();
    for ahead in 0..4 {
        law.step(&put(1), Answer::Put(ahead)).unwrap();
    }
    for length in [64, 64, 62] {
        law.step(&Call::Take, taken(1, length)).unwrap();
    }
    assert!(law.step(&Call::Take, taken(1, 1)).is_err(), "191 bytes while train 0 waits");
}

#[test]
fn order_by_train() {
    let put = |train, mark| Call::PutTrain { lane: 0, train, mark, length: 5 };
    let taken = |train, mark| Answer::Taken(Taken { lane: 0, train, mark, length: 5 });
    let begun = || {
        let mut order = Order::default();
        for (train, mark, ahead) in [(0, 1, 0), (1, 2, 0), (0, 3, 1)] {
            order.step(&put(train, mark), Answer::Put(ahead)).unwrap();
        }
        order
    };
    let mut order = begun();
    for answer in [taken(1, 2), taken(0, 1), taken(0, 3)] {
        order.step(&Call::Take, answer).unwrap();
    }
    assert!(begun().step(&Call::Take, taken(0, 3)).is_err(), "out of the train's order");
    assert!(begun().step(&Call::Take, taken(1, 1)).is_err(), "another train's record");
    assert!(begun().step(&put(1, 4), Answer::Put(3)).is_err(), "the lane's number in place of the train's");
}

#[test]
fn lines_of_a_session() {
    let setup = [FORMAT, &lane(0, 512, 100), &shared(0), &lane(1, 256, 100), END].concat();
    let text = |requests: &[&[u8]]| session::program(&[&setup, &requests.concat(), END].concat());
    assert_eq!(
        text(&[
            &put_train(0, 5, 1, 100),
            &put_train(0, 5, 2, 100),
            &put(0, 3, 60),
            &put(1, 4, 100),
            &put_train(1, 0, 5, 100),
            LOOK,
            TAKE,
            TAKE,
            TAKE,
            TAKE,
            TAKE,
        ]),
        "lanes 2\nput ok 0\nput ok 1\nput ok 0\nput ok 0\nput ok 1\nlook 0 1 100 5\ntake 0 1 100 5\n\
         take 0 3 60 0\ntake 1 4 100\ntake 0 2 100 5\ntake 1 5 100\nend 11\n",
        "the train of a shared lane alone, train 0 too"
    );
    let refused = text(&[&put_train(2, 8, 1, 0), &put_train(0, 8, 1, 0), &put_train(1, 1, 1, 1), TAKE]);
    assert_eq!(refused, "lanes 2\nno 11\nno 70\nno 70\nno 16\nend 4\n", "the walk goes on");
    let nine: Vec<Vec<u8>> = (0..9).map(|mark| put_train(0, 3, mark, 1)).collect();
    let nine: Vec<&[u8]> = nine.iter().map(Vec::as_slice).collect();
    assert!(text(&nine).ends_with("put ok 7\nno 71\nend 9\n"));
    let short = &put_train(0, 3, 1, 1)[..10];
    assert_eq!(session::program(&[&setup, short].concat()), "lanes 2\nno 1 28\nend 0\n");
    let seven = [0x26, 0, 7, 0, 0, 0, 0, 1, 0, 9];
    assert_eq!(session::program(&[&setup[..], &seven].concat()), "lanes 2\nno 3 28\nend 0\n");
}

/// A table of one shared lane: train 5 in turn with two records and 170 of 2 x 100, train 2 with one of 60 and 59.
fn table() -> Vec<u8> {
    let mut state = lane_0();
    let puts = [(5, 100), (5, 70), (5, 100), (2, 60)];
    state = filled(state, &puts);
    let Waiting::Shared(trains) = &mut state.lanes[0].waiting else { panic!("it is shared") };
    trains.trains[5].deficit = 170;
    trains.trains[2].deficit = 59;
    good::check(&state).unwrap();
    let mut bytes = vec![0xFF; layout::TABLE_SIZE];
    layout::write(&state, &mut bytes);
    bytes
}

fn broken(change: impl FnOnce(&mut Vec<u8>)) -> Vec<Clause> {
    let mut bytes = table();
    change(&mut bytes);
    layout::read(&bytes).broken
}

fn with_train(train: u8, number: u32) -> Vec<Clause> {
    broken(|bytes| set_number(bytes, 0, train, number))
}

#[test]
fn the_words_of_a_shared_lane() {
    let bytes = table();
    assert_eq!(layout::word(&bytes, 80), 100 | 512 << 16 | 18 << 32 | 2_048 << 40 | 1 << 63);
    assert_eq!(layout::word(&bytes, 82) / 64, 4, "the row counts all trains");
    assert_eq!(layout::word(&bytes, 83), 0x25 | 2 << 32);
    // Bytes of all ones leave each train's first place at 7.
    assert_eq!(number(&bytes, 0, 5), 7 + 8 * 3 + 128 * 170);
    assert_eq!(number(&bytes, 0, 2), 7 + 8 + 128 * 59);
    assert_eq!(number(&bytes, 0, 0), 7);
    assert_eq!(bytes[61_440 + 20..61_440 + 24], number_of(7, 3, 170).to_le_bytes());
    assert_eq!((layout::NOW.record)(&bytes, 0, 8 * 5 + 7).mark, 1);
    assert_eq!((layout::NOW.record)(&bytes, 0, 8 * 5).mark, 2, "its places go round");
    assert_eq!((layout::NOW.record)(&bytes, 0, 8 * 2 + 7).length, 60);
    let state = layout::read(&bytes).good().unwrap();
    assert_eq!(drained(state), [(5, 1), (5, 2), (2, 4), (5, 3)]);
}

#[test]
fn each_condition_on_both_sides() {
    assert_eq!(broken(|_| {}), []);
    // R18.8: both ends of the deficit of the train in turn.
    assert_eq!(with_train(5, number_of(7, 3, 100)), []);
    assert_eq!(with_train(5, number_of(7, 3, 99)), [Clause::TurnCovers]);
    assert_eq!(with_train(5, number_of(7, 3, 199)), []);
    assert_eq!(with_train(5, number_of(7, 3, 200)), [Clause::TurnBelow]);
    // Any other: less than its first record's.
    assert_eq!(with_train(2, number_of(7, 1, 0)), []);
    assert_eq!(with_train(2, number_of(7, 1, 60)), [Clause::OthersBelow]);
    // One that holds nothing: 0, wherever its places begin.
    assert_eq!(with_train(0, 0), []);
    assert_eq!(with_train(0, number_of(0, 0, 1)), [Clause::EmptyDeficit]);
    // How many, and the row.
    assert_eq!(with_train(5, number_of(7, 2, 170)), [Clause::TrainsCounted]);
    let row = |count: u64| broken(|bytes| layout::set_word(bytes, 82, 9 + 64 * count));
    assert_eq!([row(4), row(3), row(65)], [vec![], vec![Clause::TrainsCounted], vec![Clause::TrainsCounted]]);
    let nine = broken(|bytes| {
        set_number(bytes, 0, 5, number_of(7, 9, 170));
        layout::set_word(bytes, 82, 64 * 10);
    });
    assert_eq!(nine, [Clause::TrainRecords]);
    // The round.
    let round = |word: u64| broken(|bytes| layout::set_word(bytes, 83, word));
    for wrong in
        [0x5 | 1 << 32, 0x255 | 3 << 32, 0x325 | 3 << 32, 0x25 | 3 << 32, 0x825 | 2 << 32, 0x25 | 9 << 32]
    {
        assert!(round(wrong).contains(&Clause::Round), "{wrong:#x}");
    }
    assert!(round(0x2D | 2 << 32).contains(&Clause::Round), "13 is no train");
    // Another order is another table: train 2 in turn with 59 of 60.
    assert_eq!(round(0x52 | 2 << 32), [Clause::TurnCovers, Clause::OthersBelow]);
    // Every place fits, a record there or not.
    let at = layout::length_byte(0, 8 * 3);
    assert_eq!(broken(|bytes| bytes[at..at + 2].copy_from_slice(&100_u16.to_le_bytes())), [Clause::Places]);
    // An idle lane's trains and round mean nothing.
    let idle = broken(|bytes| {
        let mut state = lane_0();
        state.put_train(0, 1, 1, 1).unwrap();
        state.take().unwrap();
        layout::write(&state, bytes);
        layout::set_word(bytes, 83, u64::MAX);
    });
    assert_eq!(idle, []);
}

#[test]
fn a_setting_has_twenty_three_bits_of_c() {
    let mut lanes = fresh_shared(&[(0, 1, 1_500)]);
    let mut bytes = vec![0; layout::TABLE_SIZE];
    layout::write(&lanes, &mut bytes);
    assert_eq!(layout::word(&bytes, 80) >> 40, 1 << 23, "none while the lane is idle");
    lanes.put(0, 1, 64).expect("a record");
    layout::write(&lanes, &mut bytes);
    assert_eq!(layout::word(&bytes, 80) >> 40, 1 << 23 | 1 << 20);
    assert!(layout::read(&bytes).good().unwrap().alike(&lanes));
}
