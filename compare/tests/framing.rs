//! Framing (R1.6, R8.8): where the field may stand, and what its number changes, worked by hand.

mod common;
use common::*;
use compare::calls::Taken;
use compare::fields::Fault;
use compare::laws::{compared::Compared, fairness::Fairness, good};
use compare::layout::{self, Clause};
use compare::numbers::margin;
use compare::rules::State;
use compare::session::program;
use compare::setup::{read, whole};

fn framing_of(fields: &[&[u8]]) -> Result<u8, (u8, u64)> {
    whole(&fields.concat()).map(|setup| setup.framing).map_err(|Fault { number, place }| (number, place))
}

fn framed(h: u8, lanes: &[(u8, u16, u16)]) -> State {
    let lanes: Vec<u8> =
        lanes.iter().flat_map(|&(number, weight, longest)| lane(number, weight, longest)).collect();
    State::fresh(&whole(&[FORMAT, &framing(h), &lanes, END].concat()).expect("a valid setup"))
}

#[test]
fn directly_after_the_format_and_nowhere_else() {
    let (one, two) = (lane(0, 1, 64), lane(1, 1, 64));
    assert_eq!(framing_of(&[FORMAT, &one, END]), Ok(0), "absent means 0");
    for h in [0, 1, 63, 64] {
        assert_eq!(framing_of(&[FORMAT, &framing(h), &one, &two, END]), Ok(h));
    }
    assert_eq!(framing_of(&[&framing(7), FORMAT, &one, END]), Err((4, 0)), "first");
    assert_eq!(framing_of(&[FORMAT, &framing(7), &framing(7), &one, END]), Err((4, 9)), "twice");
    assert_eq!(framing_of(&[FORMAT, &one, &framing(7), END]), Err((4, 13)), "behind a lane");
    assert_eq!(framing_of(&[FORMAT, &one, &framing(7), &two, END]), Err((4, 13)), "between lanes");
    assert_eq!(framing_of(&[FORMAT, &framing(7), &one, &framing(7), END]), Err((4, 17)), "twice, apart");
    assert_eq!(framing_of(&[FORMAT, &framing(7), END]), Err((4, 9)), "no lane");
    assert_eq!(framing_of(&[FORMAT, &framing(7), FORMAT, &one, END]), Err((4, 9)), "the format again");
    assert_eq!(
        framing_of(&[FORMAT, &framing(7), &one, END, &framing(7)]),
        Err((4, 20)),
        "a byte after the end"
    );
}

#[test]
fn its_length_and_its_number() {
    let one = lane(0, 1, 64);
    for h in [65, 66, 128, 255] {
        assert_eq!(framing_of(&[FORMAT, &framing(h), &one, END]), Err((54, 8)));
        assert_eq!(framing_of(&[FORMAT, &one, &framing(h), END]), Err((4, 13)), "4 before 54");
        assert_eq!(framing_of(&[&framing(h), FORMAT, &one, END]), Err((4, 0)), "4 before 54");
    }
    for field in [&[0x11, 0, 0][..], &[0x11, 0, 2, 0, 7], &[0x11, 1, 1, 7]] {
        assert_eq!(framing_of(&[FORMAT, field, &one, END]), Err((3, 5)), "{field:?}");
        assert_eq!(framing_of(&[FORMAT, &one, field, END]), Err((3, 13)), "3 before 4");
    }
    assert_eq!(framing_of(&[FORMAT, &[0x11, 0, 1]]), Err((1, 5)), "the value is cut");
    assert_eq!(framing_of(&[FORMAT, &[0x11, 0]]), Err((1, 5)));
    assert_eq!(framing_of(&[FORMAT, &framing(64)]), Err((1, 9)));
}

#[test]
fn zero_written_out_is_the_same_plan() {
    let one = lane(3, 9, 100);
    let plan = |fields: &[&[u8]]| read(&fields.concat()).unwrap().0;
    assert_eq!(plan(&[FORMAT, &framing(0), &one, END]), plan(&[FORMAT, &one, END]));
}

#[test]
fn in_a_session() {
    let one = lane(0, 512, 1_500);
    // Lengths in puts and lines stay bare; V moves by 1,024 x (1,000 + 64), and F by 2,048 x (1,000 + 64).
    let session =
        [FORMAT, &framing(64), &one, END, &put(0, 1, 1_000), TAKE, &lag(0), &put(0, 2, 1_500), LOOK, END];
    let text = "lanes 1\nput ok 0\ntake 0 1 1000\nlag -1089536\nput ok 0\nlook 0 2 1500\nend 5\n";
    assert_eq!(program(&session.concat()), text);
    // Among requests it is an unknown tag.
    let session = [FORMAT, &framing(64), &one, END, TAKE, &framing(64), END];
    assert_eq!(program(&session.concat()), "lanes 1\nno 16\nno 2 23\nend 1\n");
}

#[test]
fn groups_go_by_longest_and_framing() {
    let group = |h: u8, weight: u16, longest: u16| framed(h, &[(0, weight, longest)]).lanes[0].group;
    assert_eq!([group(0, 1_024, 64), group(1, 1_024, 64), group(64, 1_024, 64)], [16, 17, 17]);
    assert_eq!([group(0, 1, 1_500), group(64, 1, 1_500)], [31, 31]);
    assert_eq!([group(0, 1, 64), group(1, 1, 64), group(64, 1, 64), group(64, 1, 65)], [26, 27, 27, 28]);
    assert_eq!([group(63, 1, 65), group(64, 1, 65)], [27, 28], "128 and 129 bytes");
}

#[test]
fn twelve_goes_by_the_bare_length() {
    let mut state = framed(64, &[(0, 512, 100)]);
    assert_eq!([state.put(0, 1, 0), state.put(0, 1, 101)], [Err(12), Err(12)]);
    assert_eq!([state.put(0, 1, 1), state.put(0, 1, 100)], [Ok(0), Ok(1)]);
}

#[test]
fn clocks_go_by_the_charged_length() {
    let mut state = framed(36, &[(0, 512, 1_500), (1, 256, 1_500)]);
    for (lane, mark, length) in [(0, 1, 964), (1, 2, 964), (0, 3, 464)] {
        state.put(lane, mark, length).unwrap();
    }
    assert_eq!((state.lanes[0].finish, state.lanes[1].finish), (2_048_000, 4_096_000));
    let taken: Vec<Taken> = (0..3).map(|_| state.take().unwrap()).collect();
    assert_eq!(taken.iter().map(|t| (t.lane, t.length)).collect::<Vec<_>>(), [(0, 964), (0, 464), (1, 964)]);
    // As M1 with 1,000, 500 and 1,000 bytes.
    assert_eq!(
        (state.clock, state.lanes[0].finish, state.lanes[1].finish),
        (2_560_000, 3_072_000, 4_096_000)
    );
    state.restart().unwrap();
    assert_eq!(state, framed(36, &[(0, 512, 1_500), (1, 256, 1_500)]), "restart keeps the framing number");
}

#[test]
fn margins() {
    assert_eq!([margin(0), margin(1), margin(64)], [1_536_000, 1_537_024, 1_601_536]);
    // R6.6, the lower end of R: lane 0 holds from S = 0 on.
    let mut state = framed(64, &[(0, 512, 1_500)]);
    state.put(0, 1, 1_000).unwrap();
    let two_slots = 2 << 22;
    state.clock = two_slots + 1_601_536 - 1;
    good::check(&state).unwrap();
    state.clock += 1;
    assert!(good::check(&state).is_err());
}

#[test]
fn the_laws_count_charged_bytes() {
    use compare::calls::{Answer, Call};
    let put = |lane| (Call::Put { lane, mark: 0, length: 1 }, Answer::Put(0));
    let take = |lane| (Call::Take, Answer::Taken(Taken { lane, train: 0, mark: 0, length: 1 }));
    let lanes = [(0, 512, 64), (1, 256, 64)];
    // Lane 0 waits while lane 1 sends records of one byte. Group 18 of lane 0 with h = 64 (128 x 2,048), so 4 x 2^18 + 1,024 x 128 units: 1,152 charged bytes,
    // 65 for each record, where bare ones would come to 1.
    let fresh = framed(64, &lanes);
    assert_eq!((fresh.lanes[0].group, fresh.lanes[1].group), (18, 19));
    let mut fairness = Fairness::new(&fresh);
    let mut step = |(call, answer): (Call, Answer)| fairness.step(&call, answer);
    step(put(0)).unwrap();
    step(put(1)).unwrap();
    let sent = (0..1_000).position(|_| step(put(1)).is_err() || step(take(1)).is_err());
    assert_eq!(sent, Some(17), "17 x 65 = 1,105 bytes are let pass, and 18 x 65 are not");
    // Compared: 65 x 4,096 for each record, below 4 (2^18 + 2^19) + 2 x 1,024 x 128 = 3,407,872.
    let mut compared = Compared::new(&fresh);
    let mut step = |(call, answer): (Call, Answer)| compared.step(&call, answer);
    step(put(0)).unwrap();
    step(put(1)).unwrap();
    let sent = (0..1_000).position(|_| step(put(1)).is_err() || step(take(1)).is_err());
    assert_eq!(sent, Some(12), "12 x 266,240 are let pass, and 13 x 266,240 are not");
}

#[test]
fn the_table_s_word() {
    let state = framed(38, &[(5, 512, 1_500), (9, 256, 64)]);
    let mut bytes = vec![0xFF; layout::TABLE_SIZE];
    layout::write(&state, &mut bytes);
    assert_eq!(layout::word(&bytes, 4), 38);
    assert!(layout::read(&bytes).good().expect("a good table").alike(&state));
    let broken = |value: u64| {
        let mut other = bytes.clone();
        layout::set_word(&mut other, 4, value);
        layout::read(&other).broken
    };
    // 64 + h to 128 bytes of longest 64: the same group.
    assert_eq!((broken(1), broken(64)), (vec![], vec![]));
    // 64 alone: another, of which an idle lane's word says nothing.
    assert_eq!(broken(0), []);
    let mut held = state.clone();
    held.put(9, 1, 64).expect("a record");
    let mut filled = bytes.clone();
    layout::write(&held, &mut filled);
    assert_eq!(layout::read(&filled).broken, []);
    layout::set_word(&mut filled, 4, 0);
    assert!(layout::read(&filled).broken.contains(&Clause::Group));
    assert_eq!(broken(65), [Clause::Framing]);
    for bit in 7..64 {
        assert_eq!(broken(38 | 1 << bit), [Clause::Framing], "bit {bit}");
    }
    // Another number is another table.
    let mut other = bytes.clone();
    layout::set_word(&mut other, 4, 39);
    assert!(!layout::read(&other).good().expect("a good table").alike(&state));
}
