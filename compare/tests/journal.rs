//! The desk's journal as it is written here: the papers' sentences one by one, and that its comparison finds every slip.

use compare::journal::bytes::{field, read, read_field, write, Reference, SIZE};
use compare::journal::driver::{compare, Tally};
use compare::journal::rules::{Journal, Last, Record, LAST};
use compare::journal::slips::{Slip, Slipped, ALL};
use compare::journal::{Desk, Refused};

fn record(train: u32, cell: u16, kind: u8, sequence: u32) -> Record {
    Record { train, cell, kind, sequence }
}

fn entered(records: &[Record]) -> Journal {
    let mut journal = Journal::default();
    for record in records {
        journal.enter(*record).expect("it is accepted");
    }
    journal
}

#[test]
fn a_first_record_has_any_sequence_and_is_a_join() {
    for sequence in [0, 1, 77, LAST] {
        assert_eq!(Journal::default().judge(record(5, 1, 1, sequence)), Ok(0));
        assert_eq!(Journal::default().judge(record(5, 1, 2, sequence)), Err(33));
    }
}

#[test]
fn later_records_follow() {
    let journal = entered(&[record(5, 1, 1, 7)]);
    assert_eq!(journal.judge(record(5, 1, 2, 8)), Ok(0));
    assert_eq!(journal.judge(record(5, 2, 2, 8)), Err(33));
    assert_eq!(journal.judge(record(5, 1, 1, 8)), Err(33));
    assert_eq!(journal.judge(record(5, 1, 2, 7)), Err(32));
    assert_eq!(journal.judge(record(5, 2, 1, 9)), Err(32), "32 before 33");
    assert_eq!(journal.judge(record(5, 2, 3, 9)), Err(30), "30 first");
    let left = entered(&[record(5, 1, 1, 7), record(5, 1, 2, 8)]);
    assert_eq!(left.judge(record(5, 9, 1, 9)), Ok(0));
    assert_eq!(left.judge(record(5, 1, 2, 9)), Err(33));
}

#[test]
fn the_last_sequence() {
    let mut joined = entered(&[record(5, 1, 1, LAST)]);
    assert_eq!(joined.judge(record(5, 1, 2, 0)), Err(32));
    assert_eq!(joined.clear(5), Err(34), "it holds its line");
    let mut left = entered(&[record(5, 1, 1, LAST - 1), record(5, 1, 2, LAST)]);
    assert_eq!(left.judge(record(5, 1, 1, 0)), Err(32));
    assert_eq!(left.clear(5), Ok(0));
    assert_eq!(left.enter(record(5, 1, 1, 0)), Ok(0));
}

#[test]
fn lines_are_taken_from_below() {
    let mut journal = Journal::default();
    for train in 0..64 {
        assert_eq!(journal.enter(record(train, 0, 1, 0)), Ok(train as u8));
    }
    assert_eq!(journal.judge(record(64, 0, 1, 0)), Err(31));
    assert_eq!(journal.judge(record(64, 0, 2, 0)), Err(31), "31 before 33");
    assert_eq!(journal.clear(20), Err(34));
    for train in [50, 20] {
        assert_eq!(journal.enter(record(train, 0, 2, 1)), Ok(train as u8));
        assert_eq!(journal.clear(train), Ok(train as u8));
    }
    assert_eq!(journal.enter(record(70, 0, 1, 9)), Ok(20));
    assert_eq!(journal.enter(record(71, 0, 1, 9)), Ok(50));
}

#[test]
fn fields() {
    let right = record(0x0102_0304, 0x0506, 7, 0x0809_0A0B);
    let bytes = field(right);
    assert_eq!(bytes, [0x30, 0, 11, 1, 2, 3, 4, 5, 6, 7, 8, 9, 10, 11]);
    assert_eq!(read_field(&bytes), Ok(right));
    assert_eq!(read_field(&[&bytes[..], &[0xFF]].concat()), Ok(right), "nothing after it is read");
    for length in 0..14 {
        assert_eq!(read_field(&bytes[..length]), Err(Refused::at(1, 0)), "{length} bytes");
    }
    assert_eq!(read_field(&[0x31, 9, 9]), Err(Refused::at(2, 0)), "2 before 3");
    assert_eq!(read_field(&[0x30, 0, 10]), Err(Refused::at(3, 0)), "3 before the value's 1");
}

#[test]
fn boards() {
    let mut journal = entered(&[record(1, 2, 1, 3)]);
    journal.trains.insert(9, Last { line: 63, cell: 65_535, joined: false, sequence: LAST });
    let mut board = vec![0xEE; SIZE + 3];
    write(&journal, &mut board);
    assert_eq!(board[..16], [1, 0, 0, 0, 3, 0, 0, 0, 2, 0, 1, 0, 0, 0, 0, 0]);
    assert_eq!(board[1008..], [9, 0, 0, 0, 255, 255, 255, 255, 255, 255, 2, 0, 0, 0, 0, 0, 0xEE, 0xEE, 0xEE]);
    assert_eq!(read(&board), Some(journal));
    assert_eq!(read(&board[..SIZE - 1]), None);
    for (at, value) in [(16, 1), (26, 1), (10, 0), (10, 3), (11, 1), (15, 1), (1008, 1)] {
        let mut other = board.clone();
        other[at] = value;
        // Line 1 joined with train 0 is a board; the others are none.
        assert_eq!(read(&other).is_some(), at == 26, "byte {at} is {value}");
    }
}

#[test]
fn every_call_tests_the_board_first() {
    let mut board = vec![0; SIZE];
    board[11] = 1;
    let before = board.clone();
    let refused = Refused::by(29);
    assert_eq!(Reference.record(&mut board, &[]), Err(refused));
    assert_eq!(Reference.clear(&mut board, 0), Err(refused));
    assert_eq!(Reference.line(&mut board, 200), Err(refused));
    assert_eq!(board, before);
    assert_eq!(Reference.begin(&mut board[..SIZE - 1]), Err(Refused::at(7, 0)));
    assert_eq!(Reference.begin(&mut board), Ok(()));
    assert_eq!(board, vec![0; SIZE]);
}

#[test]
fn no_difference_where_there_is_none_and_every_number_comes() {
    let mut tally = Tally::default();
    compare(&mut Slipped(Slip::None), 3, 0, |done| done < 1_000, &mut tally).expect("no slip");
    for number in [1, 2, 3, 7, 29, 30, 31, 32, 33, 34] {
        assert!(tally.refused.get(&number).is_some_and(|count| *count > 20), "{number}: {tally}");
    }
    assert!(tally.boards_good > 50 && tally.boards > 2 * tally.boards_good.min(60), "{tally}");
    assert!(tally.orders > 50 && tally.records > 10_000 && tally.cleared > 500, "{tally}");
}

#[test]
fn every_slip_is_found() {
    for &slip in ALL {
        let mut tally = Tally::default();
        let found = compare(&mut Slipped(slip), 7, 0, |done| done < 1_500, &mut tally);
        let (case, _) = found.expect_err(&format!("{slip:?} is not found"));
        let again = compare(&mut Slipped(slip), 7, case, |done| done < 1, &mut Tally::default());
        assert!(again.is_err(), "{slip:?} is not found again by its case alone");
    }
}
