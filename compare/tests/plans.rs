//! Plans in lent bytes as they are written here, and that their comparison finds every slip.

use compare::plans::driver::{compare, Tally};
use compare::plans::slips::{Slip, Slipped, ALL};
use compare::plans::words::{bytes, in_form, lay, plan, words, Reference, SIZE};
use compare::plans::{Depot, Refused};
use compare::setup::{LanePlan, Setup};

fn lane(number: u8, weight: u16, longest: u16) -> LanePlan {
    LanePlan { number, weight, longest, shared: false }
}

/// The first session's setup (R16.1).
const SESSION: &[u8] = b"\x01\0\x02\0\x01\x10\0\x05\0\x02\0\x05\xDC\x10\0\x05\x01\x01\0\x05\xDC\x7F\0\0";

#[test]
fn document_01_s_setup_goes_there_and_back() {
    let mut area = vec![0xEE; SIZE + 1];
    assert_eq!(Reference.read(SESSION, &mut area), Ok(2));
    assert_eq!(words(&area[..24]), [1, 512 + (1500 << 16), 256 + (1500 << 16)]);
    assert_eq!(area[24..], [vec![0; SIZE - 24], vec![0xEE]].concat());
    let mut buffer = vec![0xEE; 26];
    assert_eq!(Reference.write(&area, &mut buffer[..23]), Err(Refused::by(56)));
    assert_eq!(buffer, [0xEE; 26]);
    assert_eq!(Reference.write(&area, &mut buffer), Ok(24));
    assert_eq!(buffer, [SESSION, &[0xEE; 2]].concat());
}

#[test]
fn the_form() {
    assert!(in_form(SESSION));
    assert!(!in_form(b"\x01\0\x02\0\x01\x10\0\x03\0\x02\0\x7F\0\0"), "a short lane field");
    assert!(!in_form(b"\x01\0\x02\0\x01\x11\0\x01\0\x10\0\x05\0\x02\0\x05\xDC\x7F\0\0"), "0x11 of 0");
    assert!(in_form(b"\x01\0\x02\0\x01\x11\0\x01\x01\x10\0\x05\0\x02\0\x05\xDC\x7F\0\0"));
}

#[test]
fn edges_of_the_numbers() {
    let right = Setup { format: 2, framing: 64, lanes: vec![lane(0, 1, 64), lane(63, 1_023, 1_500)] };
    let mut area = vec![0; SIZE];
    lay(&right, &mut area);
    assert_eq!(plan(&area), Some(right.clone()));
    assert_eq!(bytes(&right).len(), 28);
    let with = |at: usize, word: u64| {
        let mut other = area.clone();
        other[8 * at..8 * at + 8].copy_from_slice(&word.to_le_bytes());
        plan(&other)
    };
    for (at, word) in [
        (0, 3 + (64 << 16)),
        (0, 64 << 16),
        (0, 0x102 + (64 << 16)),
        (0, 2 + (65 << 16)),
        (0, 2 + (1 << 40)),
        (1, 0x40_0000),
        (1, 1 + (63 << 16)),
        (1, 2 + (64 << 16)),
        (1, 1 + (64 << 16) + (1 << 63)),
        (5, 64 << 16),
        (64, 1_025 + (64 << 16)),
        (64, 1_023 + (1_501 << 16)),
    ] {
        assert_eq!(with(at, word), None, "word {at} is {word}");
    }
    assert!(with(1, 0).is_some());
    assert!(with(0, 1 + (64 << 16)).is_some(), "format 1");
    assert_eq!(plan(&area[..SIZE - 1]), None);
    assert_eq!(plan(&vec![0; SIZE]), None, "no lane");
}

#[test]
fn shared_lanes_go_there_and_back() {
    let setup =
        b"\x01\0\x02\0\x02\x10\0\x05\x03\x02\0\x05\xDC\x12\0\x01\x03\x10\0\x05\x3F\0\x01\0\x40\x7F\0\0";
    assert!(in_form(setup));
    let mut area = vec![0xEE; SIZE];
    assert_eq!(Reference.read(setup, &mut area), Ok(2));
    let all = words(&area);
    assert_eq!((all[4], all[64]), ((1 << 32) + (1500 << 16) + 512, (64 << 16) + 1));
    let mut buffer = vec![0xEE; 28];
    assert_eq!(
        Reference.write(&area, &mut buffer[..27]),
        Err(Refused::by(56)),
        "four bytes for each shared lane"
    );
    assert_eq!(Reference.write(&area, &mut buffer), Ok(28));
    assert_eq!(buffer, setup);
    let with = |at: usize, word: u64| {
        let mut other = area.clone();
        other[8 * at..8 * at + 8].copy_from_slice(&word.to_le_bytes());
        plan(&other).map(|plan| plan.lanes.iter().filter(|lane| lane.shared).count())
    };
    assert_eq!(with(64, (1 << 32) + (64 << 16) + 1), Some(2));
    assert_eq!(with(4, (1500 << 16) + 512), Some(0));
    for word in [2 << 32, 3 << 32, 1 << 48, 1 << 63] {
        assert_eq!(with(4, word + (1500 << 16) + 512), None, "a lane's word with {word}");
    }
    assert_eq!(with(9, 1 << 32), None, "a shared lane that is not there");
}

#[test]
fn the_largest_setup() {
    let lanes = (0..64).map(|number| LanePlan { shared: true, ..lane(number, 16, 64) }).collect();
    assert_eq!(bytes(&Setup { format: 2, framing: 1, lanes }).len(), 780);
}

#[test]
fn the_order_of_refusals() {
    let mut buffer = [];
    assert_eq!(Reference.write(&[], &mut buffer), Err(Refused::by(55)), "55 before 56");
    assert_eq!(Reference.read(b"", &mut [0; SIZE - 1]), Err(Refused::at(7, 0)), "7 first");
    assert_eq!(Reference.read(b"", &mut [0; SIZE]), Err(Refused::at(1, 0)));
}

#[test]
fn no_difference_where_there_is_none_and_every_number_comes() {
    let mut tally = Tally::default();
    compare(&mut Slipped(Slip::None), 3, 0, |done| done < 10_000, &mut tally).expect("no slip");
    for number in [1, 2, 3, 4, 6, 7, 50, 51, 52, 53, 54, 55, 56] {
        assert!(tally.refused.get(&number).is_some_and(|count| *count > 2), "{number}: {tally}");
    }
    assert!(tally.read > 500 && tally.in_form > 200 && tally.written > 500, "{tally}");
    assert!(tally.shared > 200 && tally.shared < tally.read, "{tally}");
    assert!(tally.areas_good > 200 && tally.areas > tally.areas_good + 200, "{tally}");
}

#[test]
fn every_slip_is_found() {
    for &slip in ALL {
        let mut tally = Tally::default();
        let found = compare(&mut Slipped(slip), 7, 0, |done| done < 1_500, &mut tally);
        let (case, _) = found.expect_err(&format!("{slip:?} is not found"));
        let again = compare(&mut Slipped(slip), 7, case, |done| done < 1, &mut Tally::default());
        assert!(again.is_err(), "{slip:?} is not found again by its case alone");
    }
}
