//! Plans: what is read, what is written, and what is refused.

use zenfrosta::*;

const SETUP: &[u8] = b"\x01\0\x02\0\x01\x10\0\x05\0\x02\0\x05\xDC\x10\0\x05\x01\x01\0\x05\xDC\x7F\0\0";

fn lane(weight: u16, longest: u16) -> Option<PlanLane> {
    Some(PlanLane::new(weight, longest))
}

fn outside(plan: &Plan) {
    assert_eq!(plan.to_setup(), Err(Refusal { number: 55, place: None }));
}

#[test]
fn the_size_is_the_library_s() {
    assert_eq!(plan_size(), PLAN_SIZE as u64);
}

#[test]
fn a_setup_in_the_form_is_given_back() {
    let plan = Plan::from_setup(SETUP).unwrap();
    assert_eq!((plan.format, plan.framing), (1, 0));
    assert_eq!(plan.lanes[..3], [lane(512, 1500), lane(256, 1500), None]);
    assert_eq!(plan.to_setup().unwrap(), SETUP);
}

#[test]
fn another_form_is_written_in_the_form() {
    let short = b"\x01\0\x02\0\x01\x11\0\x01\0\x10\0\x03\x07\x04\0\x7F\0\0";
    let plan = Plan::from_setup(short).unwrap();
    assert_eq!(plan.lanes[7], lane(1024, 1500));
    let written = plan.to_setup().unwrap();
    assert_eq!(written, b"\x01\0\x02\0\x01\x10\0\x05\x07\x04\0\x05\xDC\x7F\0\0");
    assert_eq!(Plan::from_setup(&written), Ok(plan));
}

#[test]
fn formats() {
    // A longest that is left out, in both formats; the format is kept, and the longest is written out.
    for (format, longest) in [(1, 1500), (2, 576)] {
        let plan = Plan::from_setup(&[1, 0, 2, 0, format, 0x10, 0, 3, 7, 4, 0, 0x7F, 0, 0]).unwrap();
        assert_eq!((plan.format, plan.lanes[7]), (format.into(), lane(1024, longest)));
        let written = plan.to_setup().unwrap();
        assert_eq!(written[..5], [1, 0, 2, 0, format]);
        assert_eq!(Plan::from_setup(&written), Ok(plan));
    }
    assert_eq!(Plan::new().format, 2);
}

#[test]
fn refusals_of_reading_have_their_places() {
    assert_eq!(Plan::from_setup(b""), Err(Refusal { number: 1, place: Some(0) }));
    assert_eq!(Plan::from_setup(b"\x01\0\x02\x01\x02"), Err(Refusal { number: 50, place: Some(3) }));
}

#[test]
fn plans_outside_the_numbers() {
    let right = Plan::from_setup(SETUP).unwrap();
    outside(&Plan::new());
    for wrong in
        [lane(0, 0), lane(0, 64), lane(1025, 64), lane(1, 63), lane(1, 1501), lane(257, 64), lane(1, 0)]
    {
        let mut plan = right.clone();
        plan.lanes[63] = wrong;
        outside(&plan);
    }
    let mut plan = right.clone();
    plan.framing = 65;
    outside(&plan);
    plan.framing = 64;
    assert_eq!(plan.to_setup().map(|setup| setup.len()), Ok(28));
    plan.format = 2;
    assert_eq!(plan.to_setup().map(|setup| setup[4]), Ok(2));
    plan.format = 3;
    outside(&plan);
    plan.format = 0x102;
    outside(&plan);
    plan.format = 0;
    outside(&plan);
}

#[test]
fn buffers() {
    let plan = Plan::from_setup(SETUP).unwrap();
    let mut buffer = [0xEE; 26];
    assert_eq!(plan.write_setup(&mut buffer[..23]), Err(Refusal { number: 56, place: None }));
    assert_eq!(buffer, [0xEE; 26]);
    assert_eq!(plan.write_setup(&mut buffer), Ok(24));
    assert_eq!(buffer[..24], *SETUP);
    assert_eq!(buffer[24..], [0xEE; 2]);
}

#[test]
fn the_greatest() {
    let shared = Some(PlanLane::shared(16, 1500));
    let plan = Plan { framing: 64, lanes: [shared; 64], ..Plan::new() };
    let setup = plan.to_setup().unwrap();
    assert_eq!(setup.len(), SETUP_MOST);
    assert_eq!(Plan::from_setup(&setup), Ok(plan));
    let plan = Plan { framing: 64, lanes: [lane(16, 1500); 64], ..Plan::new() };
    assert_eq!(plan.to_setup().map(|setup| setup.len()), Ok(524), "four bytes less for each lane of its own");
}

#[test]
fn shared_lanes() {
    let setup =
        b"\x01\0\x02\0\x02\x10\0\x05\x03\x02\0\x02\x40\x12\0\x01\x03\x10\0\x05\x04\0\x10\0\x40\x7F\0\0";
    let plan = Plan::from_setup(setup).unwrap();
    assert_eq!(plan.lanes[3..5], [Some(PlanLane::shared(512, 576)), lane(16, 64)]);
    assert_eq!(plan.to_setup().unwrap(), setup);
    assert_eq!(plan.to_sheet(), Err(Refusal { number: 82, place: None }));
    for wrong in [PlanLane::shared(0, 0), PlanLane::shared(0, 64), PlanLane::shared(1, 63)] {
        let mut plan = plan.clone();
        plan.lanes[9] = Some(wrong);
        outside(&plan);
    }
}
