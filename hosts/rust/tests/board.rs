//! The desk's board through the wrapper: every refusal, what it shows, and the edge of the sequence.

use zenfrosta::*;

fn join(train: u32, cell: u16, sequence: u32) -> [u8; 14] {
    Handover { train, cell, kind: Kind::Joined, sequence }.field()
}

fn leave(train: u32, cell: u16, sequence: u32) -> [u8; 14] {
    Handover { train, cell, kind: Kind::Left, sequence }.field()
}

#[test]
fn the_size_is_the_library_s() {
    assert_eq!(board_size(), BOARD_SIZE as u64);
}

#[test]
fn a_train_joins_leaves_and_is_cleared() {
    let mut board = Board::new();
    assert_eq!(board.record(&join(7, 3, 41)), Ok(0));
    assert_eq!(board.find(7), Some((0, Handover { train: 7, cell: 3, kind: Kind::Joined, sequence: 41 })));
    assert_eq!(board.record(&leave(7, 3, 42)), Ok(0));
    assert_eq!(board.record(&join(7, 9, 43)), Ok(0));
    assert_eq!(board.record(&leave(7, 9, 44)), Ok(0));
    assert_eq!(board.clear(7), Ok(0));
    assert_eq!((board.find(7), board.lines().count()), (None, 0));
    assert_eq!(board, Board::new());
}

#[test]
fn a_new_train_takes_the_lowest_free_line() {
    let mut board = Board::new();
    for train in 0..64 {
        assert_eq!(board.record(&join(train, 1, 0)), Ok(train as u8));
    }
    assert_eq!(board.record(&join(64, 1, 0)), Err(BoardRefusal::NoFreeLine));
    for train in [40, 5] {
        assert_eq!(board.record(&leave(train, 1, 1)), Ok(train as u8));
        assert_eq!(board.clear(train), Ok(train as u8));
    }
    // Lines 5 and 40 are holes: the board is one all the same.
    assert_eq!(Board::from_bytes(*board.as_bytes()).as_ref(), Ok(&board));
    assert_eq!(board.record(&join(1_000, 1, 0)), Ok(5));
    assert_eq!(board.record(&join(1_001, 1, 0)), Ok(40));
}

#[test]
fn refusals_leave_the_board() {
    let mut board = Board::new();
    assert_eq!(board.record(&join(7, 3, 41)), Ok(0));
    let before = board.clone();
    let mut unknown = join(7, 3, 42);
    unknown[9] = 3;
    let mut long = join(7, 3, 42).to_vec();
    long[2] = 12;
    let cases: [(&[u8], BoardRefusal); 11] = [
        (&[], BoardRefusal::Cut),
        (&[0x30, 0], BoardRefusal::Cut),
        (&[0x31, 0, 11], BoardRefusal::UnknownTag),
        (&long, BoardRefusal::WrongLength),
        (&join(7, 3, 42)[..13], BoardRefusal::Cut),
        (&unknown, BoardRefusal::KindUnknown),
        (&leave(7, 3, 41), BoardRefusal::OutOfTurn),
        (&leave(7, 3, 43), BoardRefusal::OutOfTurn),
        (&leave(7, 4, 42), BoardRefusal::DoesNotFollow),
        (&join(7, 3, 42), BoardRefusal::DoesNotFollow),
        (&leave(8, 3, 0), BoardRefusal::DoesNotFollow),
    ];
    for (field, refusal) in cases {
        assert_eq!(board.record(field), Err(refusal), "{field:?}");
    }
    assert_eq!(board.clear(7), Err(BoardRefusal::NotCleared));
    assert_eq!(board.clear(8), Err(BoardRefusal::NotCleared));
    assert_eq!(board, before);
    // Bytes after the field are not looked at.
    assert_eq!(board.record(&[&leave(7, 3, 42)[..], &[1, 2, 3]].concat()), Ok(0));
}

#[test]
fn nothing_follows_the_last_sequence() {
    let mut board = Board::new();
    assert_eq!(board.record(&join(7, 3, u32::MAX)), Ok(0));
    assert_eq!(board.record(&leave(7, 3, 0)), Err(BoardRefusal::OutOfTurn));
    assert_eq!(board.clear(7), Err(BoardRefusal::NotCleared));
    assert_eq!(board.record(&join(8, 3, u32::MAX - 1)), Ok(1));
    assert_eq!(board.record(&leave(8, 3, u32::MAX)), Ok(1));
    assert_eq!(board.record(&join(8, 3, 0)), Err(BoardRefusal::OutOfTurn));
    assert_eq!(board.clear(8), Ok(1));
    assert_eq!(board.record(&join(8, 3, 0)), Ok(1));
}

#[test]
fn bytes_that_are_no_board() {
    let mut board = Board::new();
    assert_eq!(board.record(&join(7, 3, 0)), Ok(0));
    for (at, value) in
        [(0, 8), (4, 1), (8, 4), (16, 1), (1_023, 1), (10, 0), (10, 2), (10, 3), (11, 1), (15, 128)]
    {
        let mut bytes = *board.as_bytes();
        bytes[at] = value;
        // Another train, sequence or cell is a board; a free line with a number, an unknown kind, a leave of sequence 0 and a stray bit are none.
        let is_one = [0, 4, 8].contains(&at);
        assert_eq!(Board::from_bytes(bytes).is_ok(), is_one, "byte {at} is {value}");
    }
    let mut twice = *board.as_bytes();
    twice.copy_within(0..16, 160);
    assert_eq!(Board::from_bytes(twice), Err(BoardRefusal::NotABoard));
}

#[test]
fn refusals_in_words() {
    assert_eq!(
        BoardRefusal::OutOfTurn.to_string(),
        "refused with 32: the sequence is not the train's last one plus 1"
    );
}
