//! A table shown: the clock, the setup in force, what waits in each lane; and the refusals.

use zenfrosta::*;

/// Lanes 0 and 5 of weights 512 and 256, longest 1,500 and 64, on a line of 20 framing bytes.
const SETUP: &[u8] =
    b"\x01\0\x02\0\x01\x11\0\x01\x14\x10\0\x05\0\x02\0\x05\xDC\x10\0\x05\x05\x01\0\0\x40\x7F\0\0";

fn made() -> Vec<u8> {
    let mut table = vec![0xA5; TABLE_SIZE];
    assert_eq!(make(SETUP, &mut table), Ok(2));
    table
}

fn refused<T>(number: u64) -> Result<T, Refusal> {
    Err(Refusal { number, place: None })
}

#[test]
fn the_setup_in_force() {
    let t = made();
    // (1,500 + 20) 2,048 lies between 2^21 and 2^22, (64 + 20) 4,096 between 2^18 and 2^19.
    assert_eq!(
        lane(&t, 0),
        Ok(LaneSetting { weight: 512, longest: 1500, framing: 20, group: 22, shared: false })
    );
    assert_eq!(
        lane(&t, 5),
        Ok(LaneSetting { weight: 256, longest: 64, framing: 20, group: 19, shared: false })
    );
    for k in (0..=255).filter(|k| ![0, 5].contains(k)) {
        assert_eq!(lane(&t, k), refused(11));
        assert_eq!(backlog(&t, k), refused(11));
        assert_eq!(waiting(&t, k, 0), refused(11));
        assert_eq!(waiting_of(&t, k, 8, 0), refused(11), "11 before 70");
        assert_eq!(wait(&t, k, 64), refused(11), "11 before 13");
    }
}

#[test]
fn what_waits() {
    let mut t = made();
    assert_eq!((clock(&t), backlog(&t, 0)), (Ok(0), Ok(Backlog { records: 0, time: 0 })));
    assert_eq!(waiting(&t, 0, 0), refused(16));
    for i in 0..3 {
        assert_eq!(put(&mut t, 0, 10 + i, 100 + u64::from(i)), Ok(u64::from(i)));
    }
    assert_eq!(take(&mut t), Ok(Record { lane: 0, train: 0, mark: 10, length: 100 }));
    // V went on by 1,024 (100 + 20), the lane's S by 2,048 (100 + 20).
    assert_eq!(clock(&t), Ok(122_880));
    assert_eq!(backlog(&t, 0), Ok(Backlog { records: 2, time: 245_760 }));
    assert_eq!(waiting(&t, 0, 0), Ok(Record { lane: 0, train: 0, mark: 11, length: 101 }));
    assert_eq!(waiting(&t, 0, 1), Ok(Record { lane: 0, train: 0, mark: 12, length: 102 }));
    assert_eq!(waiting(&t, 0, 2), refused(16));
    assert_eq!(waiting_of(&t, 0, 0, 1), waiting(&t, 0, 1));
    assert_eq!(waiting_of(&t, 0, 1, 0), refused(70), "the lane is not shared");
    assert_eq!(waiting(&t, 0, u64::MAX), refused(16));
    // Its first record is the one that take hands out next; idle, it keeps F.
    assert_eq!(take(&mut t), Ok(Record { lane: 0, train: 0, mark: 11, length: 101 }));
    assert_eq!(take(&mut t), Ok(Record { lane: 0, train: 0, mark: 12, length: 102 }));
    assert_eq!(backlog(&t, 0), Ok(Backlog { records: 0, time: 2_048 * (120 + 121 + 122) }));
}

#[test]
fn a_table_that_is_not_good() {
    let mut t = made();
    t[8] ^= 4;
    assert_eq!(clock(&t), refused(10));
    assert_eq!(lane(&t, 0), refused(10));
    assert_eq!(backlog(&t, 0), refused(10));
    assert_eq!(waiting(&t, 0, 0), refused(10));
    assert_eq!(waiting_of(&t, 0, 8, 0), refused(10));
    assert_eq!(wait(&t, 0, 0), refused(10));
    assert_eq!(clock(&t[..TABLE_SIZE - 1]), refused(10));
}

#[test]
fn how_long_a_record_waits() {
    let mut t = made();
    // Lane 0: four slots of 2^22, and a record of 1,500 + 20 bytes, which is also the costliest of this setup.
    assert_eq!(wait(&t, 0, 0), Ok(Wait { asked: 16_384 + 1_520, tight: 16_384 + 1_520 }));
    // Lane 5 with three ahead: 3 times 4,096 (64 + 20), four slots of 2^19.
    assert_eq!(wait(&t, 5, 3), Ok(Wait { asked: 1_008 + 2_048 + 1_520, tight: 1_008 + 2_048 + 1_520 }));
    assert!(wait(&t, 0, 63).is_ok());
    assert_eq!(wait(&t, 0, 64), refused(13), "no accepted put reports more than 63");
    assert_eq!(wait(&t, 0, u64::MAX), refused(13));
    // It goes by the setup alone.
    let before = wait(&t, 5, 0);
    assert_eq!(put(&mut t, 5, 1, 64), Ok(0));
    assert_eq!(wait(&t, 5, 0), before);

    // Of a setup of short records the second figure is less: 64 + 20 bytes in place of 1,520.
    let mut t = vec![0; TABLE_SIZE];
    let short = b"\x01\0\x02\0\x01\x11\0\x01\x14\x10\0\x05\x05\x01\0\0\x40\x7F\0\0";
    assert_eq!(make(short, &mut t), Ok(1));
    assert_eq!(wait(&t, 5, 0), Ok(Wait { asked: 2_048 + 1_520, tight: 2_048 + 84 }));
}
