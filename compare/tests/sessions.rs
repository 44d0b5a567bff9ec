//! The run: its text, count, stop reason, limits and lent areas; and the program's input.

mod common;
use common::*;
use compare::fields::Fault;
use compare::session::{program, run, walk, Stop};

fn refused(number: u8, place: u64) -> Stop {
    Stop::Refused(Fault { number, place })
}

/// The walk over the first session's setup (R16.1, 24 bytes) and these fields.
fn requests(fields: &[&[u8]], limit: u64) -> (String, u64, Stop) {
    let outcome = walk(&[two_lanes(), fields.concat()].concat(), limit);
    assert_eq!(outcome.result.written, outcome.text.len() as u64);
    (outcome.text, outcome.result.answered, outcome.result.stop)
}

fn is(text: &str, answered: u64, stop: Stop) -> (String, u64, Stop) {
    (text.to_string(), answered, stop)
}

#[test]
fn refused_setups_write_one_line() {
    assert_eq!(program(&[]), "no 1 0\n");
    assert_eq!(program(&[0x55]), "no 1 0\n");
    assert_eq!(program(&[FORMAT, END].concat()), "no 4 5\n");
    assert_eq!(program(&[FORMAT, &lane(0, 1_025, 64), END, TAKE, END].concat()), "no 52 9\n");
    let outcome = walk(&[FORMAT, &lane(9, 1_024, 64), &lane(10, 1, 64)].concat(), 1_000);
    assert_eq!((outcome.result.answered, outcome.result.stop), (0, refused(6, 17)));
    assert_eq!((outcome.text.as_str(), outcome.state), ("no 6 17\n", None));
    let zero = walk(&[0x00], 0);
    assert_eq!(
        (zero.text.as_str(), zero.result.stop),
        ("no 1 0\n", refused(1, 0)),
        "the limit is for requests"
    );
}

#[test]
fn no_requests() {
    assert_eq!(requests(&[END], 1_000), is("lanes 2\nend 0\n", 0, Stop::End));
    assert_eq!(requests(&[], 1_000), is("lanes 2\nno 1 24\nend 0\n", 0, refused(1, 24)));
}

#[test]
fn every_line() {
    let fields: &[&[u8]] = &[
        &put(1, u32::MAX, 1_500),
        LOOK,
        &lag(1),
        SETS,
        RESTART,
        TAKE,
        &lag(1),
        RESTART,
        SETS,
        LOOK,
        &lag(0),
        END,
    ];
    let text = "lanes 2\nput ok 0\nlook 1 4294967295 1500\nlag 0\nsets 8388608 0 0 0\nno 15\n\
        take 1 4294967295 1500\nlag -4608000\nrestart ok\nsets 0 0 0 0\nno 16\nlag 0\nend 11\n";
    assert_eq!(requests(fields, 1_000), is(text, 11, Stop::End));
}

#[test]
fn calls_refused_in_a_session_go_on() {
    let fields: &[&[u8]] =
        &[&put(64, 0, 0), &lag(255), &put(0, 0, 0), &put(0, 0, 1_501), &put(0, 0, 65_535), END];
    assert_eq!(
        requests(fields, 1_000),
        is("lanes 2\nno 11\nno 11\nno 12\nno 12\nno 12\nend 5\n", 5, Stop::End)
    );
    let full: Vec<u8> = put(0, 1, 1).repeat(65);
    let puts: String = (0..64).map(|ahead| format!("put ok {ahead}\n")).collect();
    let text = format!("lanes 2\n{puts}no 13\nend 65\n");
    assert_eq!(requests(&[&full, END], 1_000), is(&text, 65, Stop::End));
}

#[test]
fn refused_fields() {
    let no = |number: u8, place: u64| {
        is(&format!("lanes 2\nno 16\nno {number} {place}\nend 1\n"), 1, refused(number, place))
    };
    assert_eq!(requests(&[TAKE], 9), no(1, 27), "the input ends before 0x7F");
    assert_eq!(requests(&[TAKE, &[0x7F]], 9), no(1, 27));
    assert_eq!(requests(&[TAKE, &[0x99, 0]], 9), no(1, 27), "1 of the header before 2");
    assert_eq!(requests(&[TAKE, &put(0, 1, 1)[..9]], 9), no(1, 27));
    assert_eq!(requests(&[TAKE, FORMAT], 9), no(2, 27), "a setup's tag is not known here");
    assert_eq!(requests(&[TAKE, &lane(3, 1, 64)], 9), no(2, 27));
    assert_eq!(requests(&[TAKE, &[0x27, 9, 9]], 9), no(2, 27), "2 before 3");
    assert_eq!(requests(&[TAKE, &[0x1F, 0, 0]], 9), no(2, 27));
    for field in [[0x20, 0, 6], [0x20, 0, 8], [0x20, 1, 7], [0x21, 0, 1], [0x22, 0, 1], [0x23, 0, 1]] {
        assert_eq!(requests(&[TAKE, &field], 9), no(3, 27), "3 before 1 of the value: {field:?}");
    }
    for field in [[0x26, 0, 0], [0x26, 0, 7], [0x26, 0, 9], [0x26, 8, 0], [0x26, 1, 8]] {
        assert_eq!(requests(&[TAKE, &field], 9), no(3, 27), "{field:?}");
    }
    for field in [[0x24, 0, 0], [0x24, 0, 2], [0x24, 1, 1], [0x25, 0, 1], [0x25, 1, 0], [0x7F, 0, 1]] {
        assert_eq!(requests(&[TAKE, &field], 9), no(3, 27), "{field:?}");
    }
    assert_eq!(requests(&[TAKE, &[0x24, 0, 1]], 9), no(1, 27));
    assert_eq!(requests(&[TAKE, END, &[0]], 9), no(4, 30), "a byte after the end field");
    assert_eq!(requests(&[TAKE, END, END], 9), no(4, 30));
}

#[test]
fn limits() {
    let limit = |answered: u64| {
        is(
            &format!("lanes 2\n{}end {answered}\n", "no 16\n".repeat(answered as usize)),
            answered,
            Stop::Limit,
        )
    };
    assert_eq!(requests(&[TAKE, TAKE, END], 0), limit(0));
    assert_eq!(requests(&[END], 0), limit(0), "looked at before the end field too");
    assert_eq!(requests(&[], 0), limit(0));
    assert_eq!(requests(&[TAKE, TAKE, END], 1), limit(1));
    assert_eq!(requests(&[TAKE, TAKE, END], 2), limit(2), "reached exactly at the end field");
    assert_eq!(requests(&[TAKE, TAKE, END, &[0]], 2), limit(2), "nothing after it is read");
    assert_eq!(requests(&[TAKE, TAKE, &[0x99]], 2), limit(2));
    assert_eq!(requests(&[TAKE, TAKE], 2), limit(2));
    assert_eq!(requests(&[TAKE, TAKE, END], 3), is("lanes 2\nno 16\nno 16\nend 2\n", 2, Stop::End));
    let takes = TAKE.repeat(1_000);
    assert_eq!(requests(&[&takes, END], 1_000), limit(1_000));
    assert_eq!(requests(&[&takes[3..], END], 1_000).2, Stop::End);
}

#[test]
fn lent_areas() {
    let session = [two_lanes(), TAKE.to_vec(), END.to_vec()].concat();
    let stop = |limit, table, answers| run(&session, limit, table, 500, answers).result.stop;
    assert_eq!(stop(1_000, 500, 64 * 1_002), Stop::End);
    assert_eq!(stop(1_000, 500, 64 * 1_002 - 1), refused(17, 0));
    assert_eq!(stop(1_001, 500, 1 << 30), refused(17, 0));
    assert_eq!(stop(u64::MAX, 500, 1 << 30), refused(17, 0));
    assert_eq!(stop(0, 500, 128), Stop::Limit);
    assert_eq!(stop(0, 500, 127), refused(17, 0));
    assert_eq!(stop(0, 499, 127), refused(17, 0), "17 before 7");
    assert_eq!(stop(0, 499, 128), refused(7, 0));
    for (table, answers) in [(499, 128), (500, 127)] {
        let outcome = run(&[], 0, table, 500, answers);
        assert_eq!(
            (outcome.result.answered, outcome.result.written, outcome.state),
            (0, 0, None),
            "before the setup"
        );
    }
}

#[test]
fn the_state_after_a_run() {
    let held = |fields: &[&[u8]]| {
        let outcome = walk(&[two_lanes(), fields.concat()].concat(), 1_000);
        outcome.state.unwrap().lanes.iter().map(|lane| lane.waiting.len()).collect::<Vec<_>>()
    };
    assert_eq!(held(&[&put(1, 1, 1), &put(1, 2, 1), END]), [0, 2]);
    assert_eq!(
        held(&[&put(1, 1, 1), &put(1, 2, 1), &[0x99, 0, 0]]),
        [0, 2],
        "a refused field keeps what was made"
    );
    assert_eq!(held(&[&put(1, 1, 1), TAKE, END, &[0]]), [0, 0]);
}

#[test]
fn the_programs_input() {
    let mut input = [two_lanes(), TAKE.repeat(1_000)].concat();
    let text = format!("lanes 2\n{}end 1000\n", "no 16\n".repeat(1_000));
    input.resize(32_768, 0x99);
    assert_eq!(program(&input), text, "exactly 32,768 bytes are read");
    input.push(0x99);
    assert_eq!(program(&input), "no 18\n");
    assert_eq!(program(&vec![0; 32_769]), "no 18\n", "18 before everything else");
    assert_eq!(program(&vec![0; 32_768]), "no 2 0\n");
}

#[test]
fn sixty_four_bytes_hold_the_longest_line() {
    // Sets of sixteen groups, bits 16 to 31: the four words have at most ten digits each.
    let sets = compare::calls::Answer::Sets([0xFFFF_0000; 4]).to_string();
    let lag = compare::calls::Answer::Lag(i64::MIN).to_string();
    assert!(sets.len() < 64 && lag.len() < 64);
    assert_eq!(lag, "lag -9223372036854775808");
}
