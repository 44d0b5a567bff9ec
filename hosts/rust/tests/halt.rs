//! The small halt: which setups it makes, on which tables its calls go on, and that they are the others there.

use zenfrosta::*;

/// Lanes by number, weight and longest.
fn plan(lanes: &[(usize, u16, u16)]) -> Plan {
    let mut plan = Plan::new();
    lanes.iter().for_each(|&(lane, weight, longest)| plan.lanes[lane] = Some(PlanLane::new(weight, longest)));
    plan
}

fn own() -> Plan {
    plan(&[(0, 512, 256), (1, 256, 256), (2, 128, 256), (3, 128, 256)])
}

fn made() -> Vec<u8> {
    let mut table = vec![0xA5; TABLE_SIZE];
    assert_eq!(halt::make(&own().to_setup().unwrap(), &mut table), Ok(4));
    table
}

fn refused<T>(number: u64, place: Option<u64>) -> Result<T, Refusal> {
    Err(Refusal { number, place })
}

#[test]
fn one_setup_and_no_other() {
    let mut table = vec![0xA5; TABLE_SIZE];
    let mut format_1 = own().to_setup().unwrap();
    format_1[4] = 1;
    assert_eq!(halt::make(&format_1, &mut table), Ok(4));
    let before = table.clone();
    let mut framed = own();
    framed.framing = 1;
    let mut shared = own();
    shared.lanes[2] = Some(PlanLane { shared: true, ..PlanLane::new(128, 256) });
    let others = [
        framed,
        shared,
        plan(&[(0, 512, 256), (1, 256, 256), (2, 128, 256), (4, 128, 256)]),
        plan(&[(0, 512, 256), (1, 256, 256), (2, 128, 256), (3, 127, 256)]),
        plan(&[(0, 512, 256), (1, 256, 256), (2, 128, 256), (3, 128, 257)]),
        plan(&[(0, 512, 256), (1, 256, 256), (2, 128, 256)]),
    ];
    for other in others {
        let setup = other.to_setup().unwrap();
        assert_eq!(halt::make(&setup, &mut table), refused(refusals::NOT_A_HALT, None), "{other:?}");
        assert_eq!(halt::make(&setup, &mut table[..100]), refused(7, Some(0)), "7 before 90");
    }
    assert_eq!(halt::make(&[], &mut table), refused(1, Some(0)), "the setup's own before 90");
    assert!(table == before);
}

#[test]
fn its_calls_are_the_others() {
    let (mut t, mut other) = (made(), made());
    for (lane, length) in [(3, 256), (0, 10), (0, 256), (2, 1), (1, 100), (4, 1), (0, 257), (0, 0)] {
        assert_eq!(halt::put(&mut t, lane, 7, length), put(&mut other, lane, 7, length));
    }
    loop {
        assert_eq!(halt::look(&t), look(&other));
        assert_eq!(halt::sets(&t), sets(&other));
        assert_eq!(halt::lag(&t, 3), lag(&other, 3));
        assert_eq!(halt::restart(&mut t), restart(&mut other));
        let taken = halt::take(&mut t);
        assert_eq!(taken, take(&mut other));
        assert!(t == other);
        if taken.is_err() {
            break;
        }
    }
}

#[test]
fn another_table_or_a_page_that_waits() {
    let mut t = vec![0; TABLE_SIZE];
    make(&plan(&[(0, 512, 256)]).to_setup().unwrap(), &mut t).unwrap();
    all_refused(&mut t);
    // The halt's own setup, come over the air: an edition that was taken is no hindrance, one that waits is.
    let page = |edition| own().to_page(edition).unwrap();
    assert_eq!(offer(&mut t, &page(5)), Ok(Offered::InForce));
    assert_eq!(halt::put(&mut t, 3, 1, 256), Ok(0));
    assert_eq!(offer(&mut t, &page(6)), Ok(Offered::Waits));
    all_refused(&mut t);
    assert_eq!(take(&mut t).map(|record| record.mark), Ok(1));
    assert_eq!(halt::restart(&mut t), Ok(()));
    assert_eq!(edition(&t), Ok(Editions { last: 6, waiting: None }));
}

fn all_refused(t: &mut [u8]) {
    let before = t.to_vec();
    assert_eq!(halt::put(t, 0, 1, 64), refused(10, None));
    assert_eq!(halt::take(t), refused(10, None));
    assert_eq!(halt::look(t), refused(10, None));
    assert_eq!(halt::sets(t), refused(10, None));
    assert_eq!(halt::lag(t, 0), refused(10, None));
    assert_eq!(halt::restart(t), refused(10, None));
    assert!(*t == before[..]);
}
