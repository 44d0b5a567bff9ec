//! Refusals 1 to 6 and 50 to 54 of a setup with their places, and which fault of several is told.

mod common;
use common::*;
use compare::fields::Fault;
use compare::setup::{read, whole, Setup};

/// The refusal of a setup made of these fields.
fn refused(fields: &[&[u8]]) -> (u8, u64) {
    let input = fields.concat();
    let Fault { number, place } = whole(&input).expect_err("the setup is refused");
    (number, place)
}

fn accepted(fields: &[&[u8]]) -> Vec<(u8, u16, u16)> {
    let setup = whole(&fields.concat()).expect("the setup is accepted");
    setup.lanes.iter().map(|lane| (lane.number, lane.weight, lane.longest)).collect()
}

#[test]
fn lanes_as_said_and_the_longest_unsaid() {
    let read = accepted(&[FORMAT, &short_lane(3, 7), &lane(63, 1_017, 64), END]);
    assert_eq!(read, [(3, 7, 1_500), (63, 1_017, 64)]);
    let second: &[u8] = &[0x01, 0, 2, 0, 2];
    let read = accepted(&[second, &short_lane(3, 7), &lane(63, 1_017, 64), END]);
    assert_eq!(read, [(3, 7, 576), (63, 1_017, 64)], "format 2");
    let all: Vec<u8> = (0..64).flat_map(|number| lane(number, 16, 1_500)).collect();
    assert_eq!(accepted(&[FORMAT, &all, END]).len(), 64);
}

#[test]
fn cut_inputs() {
    assert_eq!(refused(&[]), (1, 0));
    assert_eq!(refused(&[&[0x01]]), (1, 0));
    assert_eq!(refused(&[&[0x99, 0]]), (1, 0), "a header cut short, whatever its tag");
    assert_eq!(refused(&[&[0x01, 0, 2]]), (1, 0));
    assert_eq!(refused(&[&[0x01, 0, 2, 0]]), (1, 0));
    assert_eq!(refused(&[FORMAT]), (1, 5), "the input's length where no tag stands");
    assert_eq!(refused(&[FORMAT, &[0x10]]), (1, 5));
    assert_eq!(refused(&[FORMAT, &[0x10, 0]]), (1, 5));
    assert_eq!(refused(&[FORMAT, &lane(0, 1, 64)[..7]]), (1, 5));
    assert_eq!(refused(&[FORMAT, &lane(0, 1, 64)]), (1, 13));
    assert_eq!(refused(&[FORMAT, &lane(0, 1, 64), &[0x7F, 0]]), (1, 13));
}

#[test]
fn every_cut_of_a_setup_is_told_by_1() {
    let input = two_lanes();
    for length in 0..input.len() {
        let tags = [0, 5, 13, 21, 24];
        let tag = tags.into_iter().filter(|tag| *tag <= length).max().unwrap();
        assert_eq!(whole(&input[..length]), Err(Fault::at(1, tag)), "{length} bytes");
    }
}

#[test]
fn unknown_tags() {
    assert_eq!(refused(&[&[0x00, 0, 0]]), (2, 0), "2 comes before 4");
    assert_eq!(refused(&[&[0x02, 0xFF, 0xFF]]), (2, 0), "2 comes before 3 and 1");
    assert_eq!(refused(&[FORMAT, &[0x13, 0, 0]]), (2, 5));
    assert_eq!(refused(&[FORMAT, TAKE]), (2, 5), "requests are not known in a setup");
    assert_eq!(refused(&[FORMAT, &lane(0, 1, 64), &[0xFF, 0, 0]]), (2, 13));
}

#[test]
fn wrong_lengths() {
    assert_eq!(refused(&[&[0x01, 0, 3, 0, 0, 1]]), (3, 0));
    assert_eq!(refused(&[&[0x01, 1, 2, 0, 1]]), (3, 0), "the high byte counts");
    assert_eq!(refused(&[&[0x10, 0, 4, 0, 0, 0, 0]]), (3, 0), "3 comes before 4");
    for length in [0, 1, 2, 4, 6, 7] {
        let field = [&[0x10, 0, length][..], &vec![0; usize::from(length)]].concat();
        assert_eq!(refused(&[FORMAT, &field, END]), (3, 5), "length {length}");
    }
    assert_eq!(refused(&[FORMAT, &[0x10, 1, 5, 0, 0, 1, 0, 64]]), (3, 5));
    assert_eq!(refused(&[FORMAT, &[0x10, 0, 9]]), (3, 5), "3 comes before 1 of the value");
    assert_eq!(refused(&[FORMAT, &lane(0, 1, 64), &[0x7F, 0, 1, 0]]), (3, 13));
    assert_eq!(refused(&[FORMAT, &[0x7F, 0, 1]]), (3, 5));
}

#[test]
fn order_of_fields() {
    assert_eq!(refused(&[&lane(0, 1, 64), END]), (4, 0));
    assert_eq!(refused(&[END]), (4, 0));
    assert_eq!(refused(&[FORMAT, FORMAT]), (4, 5));
    assert_eq!(refused(&[FORMAT, &lane(0, 1, 64), &[0x01, 0, 2, 9, 9]]), (4, 13), "4 comes before 50");
    assert_eq!(refused(&[FORMAT, END]), (4, 5));
    assert_eq!(refused(&[FORMAT, END, &[0]]), (4, 5), "no lane comes before the byte after");
    assert_eq!(refused(&[FORMAT, &lane(4, 1, 64), &lane(4, 1, 64), END]), (4, 13), "equal is not rising");
    assert_eq!(refused(&[FORMAT, &lane(4, 1, 64), &lane(3, 1, 64), END]), (4, 13));
    assert_eq!(refused(&[FORMAT, &lane(4, 1, 64), END, &[0x55]]), (4, 16), "the byte after the end");
    assert_eq!(refused(&[FORMAT, &lane(4, 1, 64), END, END]), (4, 16));
}

#[test]
fn shared_lanes() {
    let are = |fields: &[&[u8]]| {
        let setup = whole(&fields.concat()).expect("the setup is accepted");
        setup.lanes.iter().map(|lane| (lane.number, lane.shared)).collect::<Vec<_>>()
    };
    let (three, four) = (lane(3, 1, 64), short_lane(4, 1));
    assert_eq!(are(&[FORMAT, &three, &shared(3), &four, END]), [(3, true), (4, false)]);
    assert_eq!(are(&[FORMAT, &three, &four, &shared(4), END]), [(3, false), (4, true)]);
    assert_eq!(
        are(&[FORMAT, &framing(1), &three, &shared(3), &four, &shared(4), END]),
        [(3, true), (4, true)]
    );
    // 4 at its tag: another lane's number, elsewhere, twice.
    for other in [0, 2, 4, 64, 67, 131, 255] {
        assert_eq!(refused(&[FORMAT, &three, &shared(other), END]), (4, 13), "lane {other}");
    }
    assert_eq!(refused(&[&shared(3), FORMAT, &three, END]), (4, 0));
    assert_eq!(refused(&[FORMAT, &shared(3), &three, END]), (4, 5));
    assert_eq!(refused(&[FORMAT, &framing(1), &shared(3), &three, END]), (4, 9));
    assert_eq!(refused(&[FORMAT, &three, &four, &shared(3), END]), (4, 19));
    assert_eq!(refused(&[FORMAT, &three, &shared(3), &shared(3), END]), (4, 17));
    assert_eq!(refused(&[FORMAT, &three, END, &shared(3)]), (4, 16));
    assert_eq!(refused(&[FORMAT, &three, &shared(3), &three, END]), (4, 17), "the lane is still the last");
    assert_eq!(refused(&[FORMAT, &three, &shared(3), &framing(1), END]), (4, 17));
    // 3 and 1 before 4, and a lane's own faults before its 0x12.
    assert_eq!(refused(&[FORMAT, &[0x12, 0, 0]]), (3, 5));
    assert_eq!(refused(&[FORMAT, &three, &[0x12, 0, 2, 3, 3], END]), (3, 13));
    assert_eq!(refused(&[FORMAT, &[0x12, 0, 1]]), (1, 5));
    assert_eq!(refused(&[FORMAT, &lane(3, 0, 64), &shared(4), END]), (52, 9));
    assert_eq!(refused(&[FORMAT, &three, &shared(3)]), (1, 17));
}

#[test]
fn a_byte_after_the_setup_is_left_to_the_session() {
    let input = [two_lanes(), vec![0x55]].concat();
    assert_eq!(read(&input).map(|(setup, end)| (setup.lanes.len(), end)), Ok((2, 24)));
}

#[test]
fn values() {
    // At the first byte of the wrong number: the format's at 3, a lane field's at 8, 9 and 11.
    assert_eq!(refused(&[&[0x01, 0, 2, 0, 0]]), (50, 3));
    assert_eq!(refused(&[&[0x01, 0, 2, 0, 3]]), (50, 3), "the high byte, though the low one is wrong");
    assert_eq!(refused(&[&[0x01, 0, 2, 1, 1]]), (50, 3));
    assert_eq!(refused(&[&[0x01, 0, 2, 1, 2]]), (50, 3), "both bytes are looked at");
    assert_eq!(refused(&[&[0x01, 0, 2, 0, 3], &lane(64, 0, 0)]), (50, 3), "the first faulty field");
    for number in [64, 65, 255] {
        assert_eq!(refused(&[FORMAT, &lane(number, 1, 64), END]), (51, 8));
        assert_eq!(refused(&[FORMAT, &short_lane(number, 1), END]), (51, 8));
    }
    for weight in [0, 1_025, 1_280, 65_535] {
        assert_eq!(refused(&[FORMAT, &lane(0, weight, 64), END]), (52, 9));
        assert_eq!(refused(&[FORMAT, &short_lane(0, weight), END]), (52, 9));
    }
    for longest in [0, 63, 1_501, 1_536, 65_535] {
        assert_eq!(refused(&[FORMAT, &lane(0, 1, longest), END]), (53, 11));
        assert_eq!(refused(&[FORMAT, &lane(0, 9, 64), &lane(1, 1, longest), END]), (53, 19));
    }
    for good in [lane(63, 1, 64), lane(0, 1_024, 1_500), lane(0, 1, 65), short_lane(0, 1_024)] {
        assert_eq!(accepted(&[FORMAT, &good, END]).len(), 1, "{good:?}");
    }
}

#[test]
fn weights_in_sum() {
    assert_eq!(refused(&[FORMAT, &lane(0, 1_024, 64), &lane(1, 1, 64), END]), (6, 17), "at the weight");
    assert_eq!(refused(&[FORMAT, &lane(0, 512, 64), &lane(1, 512, 64), &short_lane(2, 1), END]), (6, 25));
    assert_eq!(refused(&[FORMAT, &lane(0, 1_024, 64), &lane(1, 1, 64)]), (6, 17), "before the end is missed");
    assert_eq!(refused(&[FORMAT, &lane(0, 1_025, 64), END]), (52, 9), "a weight over 1,024 is never 6");
}

#[test]
fn several_faults_in_one_lane_field() {
    let first = lane(4, 1_000, 64);
    assert_eq!(refused(&[FORMAT, &first, &lane(4, 0, 64), END]), (4, 13), "4 before 52");
    assert_eq!(refused(&[FORMAT, &first, &lane(3, 100, 64), END]), (4, 13), "4 before 6");
    assert_eq!(refused(&[FORMAT, &first, &lane(3, 0, 0), END]), (4, 13), "4 before all");
    assert_eq!(refused(&[FORMAT, &first, &lane(64, 0, 0), END]), (51, 16), "51 before 52 and 53");
    assert_eq!(refused(&[FORMAT, &first, &lane(64, 100, 64), END]), (51, 16), "51 before 6");
    assert_eq!(refused(&[FORMAT, &first, &lane(5, 0, 0), END]), (52, 17), "52 before 53");
    assert_eq!(refused(&[FORMAT, &first, &lane(5, 1_025, 64), END]), (52, 17), "52 before 6");
    assert_eq!(refused(&[FORMAT, &first, &lane(5, 100, 63), END]), (53, 19), "53 before 6");
    assert_eq!(refused(&[&lane(64, 0, 0), END]), (4, 0), "a first lane field, whole: 4");
    assert_eq!(refused(&[FORMAT, &first, &lane(5, 100, 63), &[0x99]]), (53, 19), "the first faulty field");
}

/// The bytes of a line of `plan_vectors`, and the place where its second reading begins.
fn vector(line: &str) -> (Vec<u8>, usize) {
    let text = line.split('#').next().expect("a first part");
    let digits: Vec<u8> = text.chars().filter_map(|c| c.to_digit(16)).map(|digit| digit as u8).collect();
    let bytes = digits.chunks_exact(2).map(|pair| 16 * pair[0] + pair[1]).collect();
    let begin = text.find('@').map_or(0, |at| text[..at].chars().filter(char::is_ascii_hexdigit).count() / 2);
    (bytes, begin + text.matches('+').count())
}

/// What `plan_vectors` prints of a reading that began at a place.
fn said(reading: Result<(Setup, usize), Fault>, from: usize) -> String {
    match reading {
        Err(fault) => format!("no {} {}", fault.number, fault.place + from as u64),
        Ok((setup, end)) => {
            let lanes = setup.lanes.iter().map(|l| {
                let shared = if l.shared { "/shared" } else { "" };
                format!(" {}/{}/{}/{}{shared}", l.number, l.weight, l.longest, setup.framing)
            });
            let lanes: String = lanes.collect();
            format!("format {}, lanes {} to {},{lanes}", setup.format, setup.lanes.len(), end + from)
        }
    }
}

#[test]
fn the_vectors_of_plans_say_the_same() {
    let folder = concat!(env!("CARGO_MANIFEST_DIR"), "/../crates/plan_vectors");
    let text = |name: &str| std::fs::read_to_string(format!("{folder}/{name}")).expect("a file of vectors");
    let (given, wanted) = (text("stdin"), text("stdout"));
    assert_eq!(given.lines().count(), wanted.lines().count());
    for (line, wanted) in given.lines().zip(wanted.lines()) {
        let (bytes, place) = vector(line);
        let from = place.min(bytes.len());
        let all = whole(&bytes).map(|setup| (setup, bytes.len()));
        assert_eq!(format!("{}; {}", said(all, 0), said(read(&bytes[from..]), from)), wanted, "{line}");
    }
}
