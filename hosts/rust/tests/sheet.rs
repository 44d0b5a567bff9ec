//! Text sheets: what is read, what is written, and what is refused.

use zenfrosta::*;

const SHEET: &[u8] = b"0 512 1500\n1 256 576\n63 1 64\n";

fn lane(weight: u16, longest: u16) -> Option<PlanLane> {
    Some(PlanLane::new(weight, longest))
}

#[test]
fn a_sheet_is_given_back() {
    let plan = Plan::from_sheet(SHEET).unwrap();
    assert_eq!((plan.format, plan.framing), (2, 0));
    assert_eq!(plan.lanes[..3], [lane(512, 1500), lane(256, 576), None]);
    assert_eq!(plan.lanes[63], lane(1, 64));
    assert_eq!(plan.to_sheet().unwrap().as_bytes(), SHEET);
    assert_eq!(Plan::from_setup(&plan.to_setup().unwrap()), Ok(plan));
}

#[test]
fn refusals_of_reading_have_their_places() {
    for (sheet, number, place) in [
        ("", 81, 0),
        ("0 1 64", 81, 6),
        ("0 01 64\n", 80, 3),
        ("100000 1 64\n", 80, 5),
        ("64 0 0\n", 51, 0),
        ("0 0 0\n", 52, 2),
        ("0 1 0\n", 53, 4),
        ("1 1 64\n1 1 64\n", 4, 7),
        ("1 1024 64\n2 1 64\n", 6, 12),
    ] {
        assert_eq!(
            Plan::from_sheet(sheet.as_bytes()),
            Err(Refusal { number, place: Some(place) }),
            "{sheet:?}"
        );
    }
}

#[test]
fn refusals_of_writing() {
    let mut plan = Plan::new();
    let refused = |number| Err(Refusal { number, place: None });
    assert_eq!(plan.to_sheet(), refused(55));
    plan.lanes[5] = lane(7, 64);
    plan.framing = 1;
    assert_eq!(plan.to_sheet(), refused(82));
    plan.framing = 0;
    let mut bytes = [9; 8];
    assert_eq!(plan.write_sheet(&mut bytes[..6]), Err(Refusal { number: 56, place: None }));
    assert_eq!(bytes, [9; 8]);
    assert_eq!(plan.write_sheet(&mut bytes), Ok(7));
    assert_eq!(&bytes, b"5 7 64\n\x09");
}

#[test]
fn the_longest_sheet_fits() {
    let mut plan = Plan::new();
    for number in 0..64 {
        // Four weights of 100, sixty of 10: 1,000 in sum.
        plan.lanes[number] = lane(if number < 4 { 100 } else { 10 }, 1000);
    }
    plan.lanes[4] = lane(34, 1500);
    let sheet = plan.to_sheet().unwrap();
    assert_eq!(sheet.len(), SHEET_MOST);
    assert_eq!(Plan::from_sheet(sheet.as_bytes()), Ok(plan));
}
