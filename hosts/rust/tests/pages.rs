//! Settings pages: in force at once or when the last record is handed out, refusals with their places, and what a restart keeps.

use zenfrosta::*;

fn plan(lanes: &[(usize, u16, u16)]) -> Plan {
    let mut plan = Plan::new();
    lanes.iter().for_each(|&(lane, weight, longest)| plan.lanes[lane] = Some(PlanLane::new(weight, longest)));
    plan
}

fn made() -> Vec<u8> {
    let mut table = vec![0xA5; TABLE_SIZE];
    let setup = plan(&[(0, 512, 1_500), (1, 256, 1_500)]).to_setup().unwrap();
    assert_eq!(make(&setup, &mut table), Ok(2));
    table
}

fn new_page(edition: u16) -> Vec<u8> {
    plan(&[(0, 64, 200), (5, 128, 300)]).to_page(edition).unwrap()
}

fn refused<T>(number: u64, place: Option<u64>) -> Result<T, Refusal> {
    Err(Refusal { number, place })
}

const OLD: u64 = refusals::OLD_EDITION;

#[test]
fn a_page_s_bytes() {
    let page = new_page(0x0107);
    assert_eq!(&page[..8], [0x40, 0, 2, 1, 7, 0x41, 0, 24]);
    assert_eq!(page.len(), 24 + PAGE_MORE);
    assert_eq!(&page[32..], [0x7F, 0, 0]);
    assert_eq!(zenfrosta::page(7, &[0; 65_536]), None);
}

#[test]
fn in_force_at_once() {
    let mut t = made();
    assert_eq!(edition(&t), Ok(Editions { last: 0, waiting: None }));
    assert_eq!(offer(&mut t, &new_page(7)), Ok(Offered::InForce));
    assert_eq!(edition(&t), Ok(Editions { last: 7, waiting: None }));
    assert_eq!(lane(&t, 5).map(|lane| (lane.weight, lane.longest)), Ok((128, 300)));
    assert_eq!(lane(&t, 1), refused(11, None));
}

#[test]
fn waits_for_the_last_record() {
    let mut t = made();
    put(&mut t, 0, 1, 1_000).unwrap();
    put(&mut t, 1, 2, 1_000).unwrap();
    assert_eq!(offer(&mut t, &new_page(7)), Ok(Offered::Waits));
    assert_eq!(edition(&t), Ok(Editions { last: 0, waiting: Some(7) }));
    assert_eq!(put(&mut t, 5, 3, 100), refused(11, None));
    assert_eq!(offer(&mut t, &new_page(300)), Ok(Offered::Waits), "it takes the other's place");
    assert_eq!(restart(&mut t), refused(15, None));
    assert_eq!(take(&mut t).map(|record| record.mark), Ok(1));
    assert_eq!(edition(&t), Ok(Editions { last: 0, waiting: Some(300) }));
    assert_eq!(take(&mut t).map(|record| record.mark), Ok(2));
    assert_eq!(edition(&t), Ok(Editions { last: 300, waiting: None }));
    assert_eq!(clock(&t), Ok(0));
    assert_eq!(put(&mut t, 5, 3, 300), Ok(0));
}

#[test]
fn refusals_in_their_order() {
    let mut t = made();
    put(&mut t, 0, 1, 10).unwrap();
    assert_eq!(offer(&mut t, &new_page(7)), Ok(Offered::Waits));
    let before = t.clone();
    let mut wrong = new_page(0);
    assert_eq!(offer(&mut t, &wrong), refused(OLD, None), "edition 0 is above none");
    // The weight of lane 5: the setup begins at byte 8, its second lane at 21.
    wrong[25..27].copy_from_slice(&[0, 0]);
    assert_eq!(offer(&mut t, &wrong), refused(52, Some(25)), "what is wrong in the page comes first");
    for old in [6, 7] {
        assert_eq!(offer(&mut t, &new_page(old)), refused(OLD, None));
    }
    let whole = new_page(8);
    assert_eq!(offer(&mut t, &whole[..whole.len() - 3]), refused(1, Some(whole.len() as u64 - 3)));
    assert_eq!(offer(&mut t, &[&whole[..], &[0x80, 0, 0]].concat()), refused(4, Some(whole.len() as u64)));
    assert_eq!(offer(&mut t, &whole[5..]), refused(4, Some(0)));
    assert!(t == before, "a refused page changes nothing");
    assert_eq!(offer(&mut t[..TABLE_SIZE - 1], &whole[5..]), refused(10, None));
    assert_eq!(edition(&t[..TABLE_SIZE - 1]), refused(10, None));
}

#[test]
fn skipped_fields_change_nothing() {
    let plain = new_page(7);
    let end = plain.len() - 3;
    let more =
        [&plain[..5], &[0xFF, 0, 2, 0xAA, 0xBB], &plain[5..end], &[0x80, 0, 0], &plain[end..]].concat();
    let (mut one, mut other) = (made(), made());
    assert_eq!(offer(&mut one, &plain), offer(&mut other, &more));
    assert!(one == other);
}

#[test]
fn a_restart_keeps_the_edition() {
    let mut t = made();
    assert_eq!(offer(&mut t, &new_page(65_535)), Ok(Offered::InForce));
    assert_eq!(restart(&mut t), Ok(()));
    assert_eq!(edition(&t), Ok(Editions { last: 65_535, waiting: None }));
    assert_eq!(offer(&mut t, &new_page(65_535)), refused(OLD, None), "no edition is above this one");
}
