//! How long a record waits: the figures of docs/FAIRNESS.md, and the law on lists that break it.

mod common;
use common::*;
use compare::calls::{Answer, Call, Taken};
use compare::driver;
use compare::driver::report::Tally;
use compare::laws::waits::Waits;
use compare::rules::State;
use compare::shown::{shown, Ask};
use compare::stand_in::{Slip, StandIn};

fn worst(state: &State, ahead: u64) -> Result<[u64; 2], u8> {
    shown(state, Ask::Wait(0, ahead)).map(|[asked, tight, ..]| [asked, tight])
}

#[test]
fn figures() {
    let session = fresh(&[(0, 512, 1500), (1, 256, 1500)]);
    assert_eq!([0, 2, 15].map(|ahead| worst(&session, ahead)), [17_884, 23_884, 62_884].map(|w| Ok([w, w])));
    assert_eq!([63, 64, u64::MAX].map(|ahead| worst(&session, ahead).err()), [None, Some(13), Some(13)]);
    for (weight, longest, none, three) in [
        (1, 64, 263_644, 460_252),
        (1, 1500, 8_390_108, 12_998_108),
        (16, 576, 263_644, 374_236),
        (128, 64, 3_548, 5_084),
        (512, 576, 9_692, 13_148),
    ] {
        let lane = fresh(&[(0, weight, longest)]);
        let less = 1_500 - u64::from(longest);
        assert_eq!(worst(&lane, 0), Ok([none, none - less]), "{weight} {longest}");
        assert_eq!(worst(&lane, 3), Ok([three, three - less]), "{weight} {longest}");
    }
    let shared = fresh_shared(&[(0, 512, 1500)]);
    assert_eq!([0, 2].map(|ahead| worst(&shared, ahead)), [80_884, 128_884].map(|w| Ok([w, w])));
    assert_eq!([7, 8].map(|ahead| worst(&shared, ahead).err()), [None, Some(71)]);
    assert_eq!(shown(&shared, Ask::Wait(1, 0)), Err(11));
}

/// A record is put to lane 0, and then so many of 1,500 bytes of lane 1 go out before it.
fn after_others(others: u32) -> Result<(), String> {
    let mut state = fresh(&[(0, 512, 1500), (1, 256, 1500)]);
    let mut law = Waits::default();
    let put = |lane, mark| Call::Put { lane, mark, length: 1_500 };
    let taken = |lane, mark| Answer::Taken(Taken { lane, train: 0, mark, length: 1_500 });
    state.put(0, 9, 1_500).unwrap();
    law.step(&put(0, 9), Answer::Put(0), &state)?;
    state.put(1, 1, 1_500).unwrap();
    for mark in 0..others {
        law.step(&put(1, mark), Answer::Put(0), &state)?;
        law.step(&Call::Take, taken(1, mark), &state)?;
    }
    law.step(&Call::Take, taken(0, 9), &state)
}

#[test]
fn a_list_that_breaks_the_law() {
    // Lag is 0 right after the put, so that two slots are the bound: 8,192 + 1,500 bytes.
    assert_eq!(after_others(6), Ok(()));
    assert!(after_others(7).is_err());
}

#[test]
fn lists_that_make_a_record_wait() {
    let mut tally = Tally::default();
    let result = driver::compare_waits(&mut StandIn::new(Slip::None), 1, 0, |done| done < 40, &mut tally);
    assert!(result.is_ok(), "{result:?}");
    assert_eq!(tally.lists, 40);
    assert!(tally.closest_wait.part.of(1_000) > 600, "{}", tally.closest_wait);
}
