//! The office's text sheet: what is read, each refusal with its place, and which fault of several is told.

use compare::fields::Fault;
use compare::setup::{LanePlan, Setup};
use compare::sheets::driver::{compare, Tally};
use compare::sheets::slips::{Slip, Slipped, ALL};
use compare::sheets::text::{read, write, Reference};
use compare::sheets::{Office, Refused};

fn refused(sheet: &str) -> (u8, u64) {
    let Fault { number, place } = read(sheet.as_bytes()).expect_err(sheet);
    (number, place)
}

#[test]
fn lanes_are_read_and_written_back() {
    let sheet = "0 512 1500\n7 1 64\n63 511 99\n";
    let plan = read(sheet.as_bytes()).expect("a sheet of the form");
    let lane = |number, weight, longest| LanePlan { number, weight, longest, shared: false };
    assert_eq!(
        (plan.format, plan.framing, &plan.lanes[..]),
        (2, 0, &[lane(0, 512, 1500), lane(7, 1, 64), lane(63, 511, 99)][..])
    );
    assert_eq!(write(&plan).as_deref(), Some(sheet.as_bytes()));
    let framed = Setup { framing: 1, ..plan.clone() };
    assert_eq!(write(&framed), None);
    for shared in 0..3 {
        let mut plan = plan.clone();
        plan.lanes[shared].shared = true;
        assert_eq!(write(&plan), None, "one shared lane");
    }
}

#[test]
fn the_first_byte_that_the_form_cannot_have() {
    for (sheet, place) in [
        (" 0 1 64\n", 0),
        ("\n", 0),
        ("00 1 64\n", 1),
        ("0  1 64\n", 2),
        ("0 01 64\n", 3),
        ("123456 1 64\n", 5),
        ("0 1 64 \n", 6),
        ("0 1 64\r\n", 6),
        ("0 1\n", 3),
        ("0\t1 64\n", 1),
        ("+0 1 64\n", 0),
        ("0 1 64\n\n", 7),
        ("0 1 64\n1 -1 64\n", 9),
        ("0 1 064", 5),
        ("0 1 100000", 9),
    ] {
        assert_eq!(refused(sheet), (80, place), "{sheet:?}");
    }
}

#[test]
fn empty_or_cut_in_a_line() {
    for sheet in ["", "0", "0 ", "0 1", "0 1 ", "0 1 64", "0 1 64\n1", "0 1 64\n1 1 64"] {
        assert_eq!(refused(sheet), (81, sheet.len() as u64), "{sheet:?}");
    }
}

#[test]
fn numbers_in_their_order() {
    assert_eq!(refused("64 0 63\nx"), (51, 0), "a line is judged before the next one is looked at");
    assert_eq!(refused("99999 1 64\n"), (51, 0));
    assert_eq!(refused("0 0 63\n"), (52, 2));
    assert_eq!(refused("0 1025 64\n"), (52, 2));
    assert_eq!(refused("0 65537 64\n"), (52, 2), "nothing wraps");
    assert_eq!(refused("0 1 63\n"), (53, 4));
    assert_eq!(refused("0 1 65600\n"), (53, 4), "nothing wraps");
    assert_eq!(refused("5 1024 64\n5 1 63\n"), (53, 14), "53 before 4 and 6");
    assert_eq!(refused("5 1024 64\n5 1 64\n"), (4, 10), "4 before 6");
    assert_eq!(refused("5 1024 64\n4 1 64\n"), (4, 10));
    assert_eq!(refused("5 1024 64\n6 1 64\n"), (6, 12));
    assert_eq!(refused("5 1024 64\n6 1 64"), (81, 16), "the line is cut before its numbers are looked at");
}

#[test]
fn refusals_of_writing_in_their_order() {
    let mut area = vec![0; 520];
    assert_eq!(Reference.write(&area, &mut []), Err(Refused::by(55)));
    assert_eq!(Reference.read(b"3 7 64\n", &mut area), Ok(1));
    area[2] = 1;
    assert_eq!(Reference.write(&area, &mut []), Err(Refused::by(82)), "82 before 56");
    area[2] = 65;
    assert_eq!(Reference.write(&area, &mut []), Err(Refused::by(55)), "55 before 82");
    area[2] = 0;
    area[8 * 4 + 4] = 1;
    assert_eq!(Reference.write(&area, &mut []), Err(Refused::by(82)), "a shared lane: 82 before 56");
    area[8 * 4 + 4] = 2;
    assert_eq!(Reference.write(&area, &mut []), Err(Refused::by(55)), "no plan: 55 before 82");
    area[8 * 4 + 4] = 0;
    let mut buffer = [9; 8];
    assert_eq!(Reference.write(&area, &mut buffer[..6]), Err(Refused::by(56)));
    assert_eq!(buffer, [9; 8]);
    assert_eq!(Reference.write(&area, &mut buffer), Ok(7));
    assert_eq!(&buffer, b"3 7 64\n\x09");
}

#[test]
fn the_second_build_agrees_and_every_slip_is_found() {
    let mut tally = Tally::default();
    assert!(compare(&mut Slipped(Slip::None), 7, 0, |done| done < 4_000, &mut tally).is_ok());
    for number in [4, 6, 7, 51, 52, 53, 55, 56, 80, 81, 82] {
        assert!(tally.refused.contains_key(&number), "no {number} among {tally}");
    }
    for &slip in ALL {
        let found = compare(&mut Slipped(slip), 7, 0, |done| done < 1_500, &mut Tally::default());
        assert!(found.is_err(), "{slip:?} was not found");
    }
}
