//! Several trains in one lane: turns, numbers told, refusals, and what a table shows.

use zenfrosta::*;

/// Lane 0 of weight 512 and longest 100, shared; lane 1 of weight 256 and longest 100.
const SETUP: &[u8] =
    b"\x01\0\x02\0\x01\x10\0\x05\0\x02\0\0\x64\x12\0\x01\0\x10\0\x05\x01\x01\0\0\x64\x7F\0\0";

fn made() -> Vec<u8> {
    let mut table = vec![0xA5; TABLE_SIZE];
    assert_eq!(make(SETUP, &mut table), Ok(2));
    table
}

fn refused<T>(number: u64) -> Result<T, Refusal> {
    Err(Refusal { number, place: None })
}

fn of(train: u8, mark: u32, length: u64) -> Record {
    Record { lane: 0, train, mark, length }
}

#[test]
fn turns_by_bytes() {
    let mut t = made();
    for (train, mark, length, ahead) in
        [(5, 1, 100, 0), (5, 2, 100, 1), (2, 3, 60, 0), (2, 4, 60, 1), (2, 5, 60, 2)]
    {
        assert_eq!(put_train(&mut t, 0, train, mark, length), Ok(ahead));
    }
    assert_eq!(look(&t), Ok(of(5, 1, 100)));
    for (train, mark, length) in [(5, 1, 100), (2, 3, 60), (5, 2, 100), (2, 4, 60), (2, 5, 60)] {
        assert_eq!(take(&mut t), Ok(of(train, mark, length)));
    }
    assert_eq!(take(&mut t), refused(16));
}

#[test]
fn a_put_without_a_train_is_train_0_s() {
    let mut t = made();
    assert_eq!([put(&mut t, 0, 1, 10), put_train(&mut t, 0, 0, 2, 10)], [Ok(0), Ok(1)]);
    assert_eq!([put(&mut t, 1, 1, 10), put_train(&mut t, 1, 0, 2, 10)], [Ok(0), Ok(1)]);
    assert_eq!(take(&mut t).map(|record| record.train), Ok(0));
}

#[test]
fn refusals_in_their_order() {
    let mut t = made();
    assert_eq!(put_train(&mut t, 2, 8, 0, 0), refused(11));
    assert_eq!(put_train(&mut t, 0, 8, 0, 0), refused(70));
    assert_eq!(put_train(&mut t, 1, 1, 0, 0), refused(70));
    assert_eq!(put_train(&mut t, 0, 7, 0, 101), refused(12));
    for mark in 0..8 {
        assert_eq!(put_train(&mut t, 0, 7, mark, 100), Ok(mark.into()));
    }
    let before = t.clone();
    assert_eq!(put_train(&mut t, 0, 7, 8, 101), refused(12));
    assert_eq!(put_train(&mut t, 0, 7, 8, 100), refused(71));
    assert!(t == before);
    assert_eq!(put(&mut t, 0, 8, 100), Ok(0), "train 0 has its own room");
    t[8] ^= 4;
    assert_eq!(put_train(&mut t, 2, 8, 0, 0), refused(10));
}

#[test]
fn what_a_shared_lane_shows() {
    let mut t = made();
    assert_eq!(
        lane(&t, 0),
        Ok(LaneSetting { weight: 512, longest: 100, framing: 0, group: 18, shared: true })
    );
    assert_eq!(lane(&t, 1).map(|setting| setting.shared), Ok(false));
    for (train, mark) in [(3, 1), (3, 2), (0, 3)] {
        put_train(&mut t, 0, train, mark, 50).unwrap();
    }
    assert_eq!(backlog(&t, 0).map(|backlog| backlog.records), Ok(3), "all trains together");
    assert_eq!(waiting_of(&t, 0, 3, 0), Ok(of(3, 1, 50)));
    assert_eq!(waiting_of(&t, 0, 3, 1), Ok(of(3, 2, 50)));
    assert_eq!(waiting_of(&t, 0, 3, 2), refused(16));
    assert_eq!(waiting_of(&t, 0, 7, 0), refused(16));
    assert_eq!(waiting_of(&t, 0, 8, 0), refused(70));
    assert_eq!(waiting(&t, 0, 0), Ok(of(0, 3, 50)), "train 0's queue");
    assert_eq!(waiting(&t, 0, 1), refused(16));
}

#[test]
fn a_session_with_trains() {
    // Train 5 and train 0 of lane 0, and lane 1.
    let requests =
        b"\x26\0\x08\0\x05\0\0\0\x01\0\x64\x20\0\x07\0\0\0\0\x02\0\x3C\x26\0\x08\x01\0\0\0\0\x03\0\x64\
        \x26\0\x08\x01\x01\0\0\0\x04\0\x64\x22\0\0\x21\0\0\x21\0\0\x21\0\0\x7F\0\0";
    let session = [SETUP, requests].concat();
    let mut table = vec![0; TABLE_SIZE];
    let mut answers = vec![0; answer_area(20)];
    let told = run(&session, 20, &mut table, &mut answers);
    assert_eq!((told.answered, told.stop), (8, Stop::End));
    let lines = std::str::from_utf8(&answers[..told.written]).unwrap();
    assert_eq!(
        lines,
        "lanes 2\nput ok 0\nput ok 0\nput ok 0\nno 70\nlook 0 1 100 5\ntake 0 1 100 5\ntake 0 2 60 0\ntake 1 3 100\nend 8\n"
    );
}

#[test]
fn how_long_a_record_of_a_train_waits() {
    let t = made();
    // The lane sends up to (8 n + 21) 100 bytes before it, each of 2,048; four slots of 2^18; a record of 1,500 bytes, and of 100.
    assert_eq!(wait(&t, 0, 2), Ok(Wait { asked: 7_400 + 1_024 + 1_500, tight: 7_400 + 1_024 + 100 }));
    assert!(wait(&t, 0, 7).is_ok());
    assert_eq!(wait(&t, 0, 8), refused(71), "no accepted put reports more than 7");
    assert_eq!(wait(&t, 1, 64), refused(13), "lane 1 is not shared");
}
