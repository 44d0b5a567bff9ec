//! Tables from before lanes had room for 64 records, and that room.

use zenfrosta::*;

/// A table of that time: lanes 0 and 1 of weight 512 and longest 1,500, c 2,048, group 22. `held` records of 100 bytes in each, marked 100 and on
/// in lane 0 and 200 and on in lane 1; V and both S are 0. Lane 1 comes before lane 0.
fn old(held: u64) -> Vec<u8> {
    let mut t = vec![0; OLD_TABLE_SIZE];
    let mut word = |i: usize, v: u64| t[8 * i..8 * i + 8].copy_from_slice(&v.to_le_bytes());
    word(1, 3);
    for lane in 0..2 {
        word(80 + 4 * lane, 0x0008_0016_0200_05DC);
        // From place 3 on, over the ring's end.
        word(82 + 4 * lane, 3 + 16 * held);
        for i in 0..held {
            let place = 336 + 16 * lane + (3 + i as usize) % 16;
            word(place, 100 * (lane as u64 + 1) + i + (100 << 32));
        }
    }
    if held > 0 {
        word(1360, 1 << 22);
        word(1398, 1);
        // List 0 of group 22: two lanes, 1 and 0.
        t[11_968] = 2;
        t[24_576] = 1;
    }
    t
}

fn refused<T>(number: u64, place: Option<u64>) -> Result<T, Refusal> {
    Err(Refusal { number, place })
}

#[test]
fn the_old_size_is_the_library_s() {
    assert_eq!(old_table_size(), OLD_TABLE_SIZE as u64);
}

#[test]
fn full_lanes_are_taken_over() {
    let kept = old(16);
    let mut t = vec![0xA5; TABLE_SIZE + 8];
    assert_eq!(convert(&kept, &mut t), Ok(()));
    assert_eq!(t[TABLE_SIZE..], [0xA5; 8]);
    // Room for 48 more in each lane.
    for i in 16..64 {
        assert_eq!(put(&mut t, 0, 100 + i as u32, 100), Ok(i));
    }
    assert_eq!(put(&mut t, 0, 0, 100), refused(13, None));
    // The tie goes to lane 1; a lane's records stay in their order.
    assert_eq!(take(&mut t), Ok(Record { lane: 1, train: 0, mark: 200, length: 100 }));
    let rest: Vec<Record> = std::iter::from_fn(|| take(&mut t).ok()).collect();
    let marks = |lane| rest.iter().filter(move |r| r.lane == lane).map(|r| r.mark);
    assert!(marks(0).eq(100..164));
    assert!(marks(1).eq(201..216));
    assert_eq!(take(&mut t), refused(16, None));
}

#[test]
fn an_idle_lane_keeps_its_finish() {
    let mut kept = old(0);
    kept[648..656].copy_from_slice(&3_000u64.to_le_bytes());
    let mut t = vec![0; TABLE_SIZE];
    assert_eq!(convert(&kept, &mut t), Ok(()));
    assert_eq!(lag(&t, 0), Ok(-3_000));
    assert_eq!(lag(&t, 1), Ok(0));
}

#[test]
fn refusals_change_nothing() {
    let kept = old(2);
    let mut t = vec![0xA5; TABLE_SIZE];
    assert_eq!(convert(&kept, &mut t[..TABLE_SIZE - 1]), refused(7, Some(0)));
    // 7 goes before 10.
    assert_eq!(convert(&[], &mut []), refused(7, Some(0)));
    assert_eq!(convert(&kept[..OLD_TABLE_SIZE - 1], &mut t), refused(10, None));
    assert_eq!(convert(&[0; OLD_TABLE_SIZE], &mut t), refused(10, None));
    // The list says one lane, and two hold records.
    let mut bad = kept.clone();
    bad[11_968] = 1;
    assert_eq!(convert(&bad, &mut t), refused(10, None));
    assert!(t.iter().all(|&byte| byte == 0xA5));
    // The calls do not take an old table, nor does it come through them.
    assert_eq!(look(&kept), refused(10, None));
}

#[test]
fn sixty_four_records_and_no_more() {
    // M7
    const SETUP: &[u8] = b"\x01\0\x02\0\x01\x10\0\x05\0\x02\0\x05\xDC\x7F\0\0";
    let mut t = vec![0; TABLE_SIZE];
    assert_eq!(make(SETUP, &mut t), Ok(1));
    for i in 0..64 {
        assert_eq!(put(&mut t, 0, i as u32, 100), Ok(i));
    }
    assert_eq!(put(&mut t, 0, 64, 100), refused(13, None));
    assert_eq!(take(&mut t), Ok(Record { lane: 0, train: 0, mark: 0, length: 100 }));
    assert_eq!(put(&mut t, 0, 64, 100), Ok(63));
}
