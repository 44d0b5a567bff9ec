//! The list of refusals, the bounds of an answer area, and the version.

use zenfrosta::refusals::{LANE_FULL, NOTHING_HELD};
use zenfrosta::*;

#[test]
fn the_list() {
    let numbers: Vec<u64> = RefusalKind::ALL.iter().map(|kind| kind.number()).collect();
    assert!(numbers.windows(2).all(|pair| pair[0] < pair[1]));
    for number in 0..300 {
        let kind = RefusalKind::of(number);
        assert_eq!(kind.is_some(), numbers.contains(&number));
        assert_eq!(kind.map_or(number, RefusalKind::number), number);
    }
    assert_eq!(RefusalKind::of(LANE_FULL), Some(RefusalKind::LaneFull));
    assert_eq!(RefusalKind::LaneFull.name(), "LANE_FULL");
    assert_eq!(Refusal { number: NOTHING_HELD, place: None }.kind(), Some(RefusalKind::NothingHeld));
}

/// The board's own texts are the list's.
#[test]
fn the_board_s_words() {
    let refused = Board::new().clear(1).expect_err("nobody is on the board");
    let kind = RefusalKind::of(refused.number()).expect("a number of the list");
    assert_eq!(refused.to_string(), format!("refused with {}: {}", kind.number(), kind.words()));
}

#[test]
fn answer_areas() {
    assert_eq!(answer_area(0), 128);
    assert_eq!(answer_area(MOST_REQUESTS), 64_128);
    assert_eq!(answer_area(u64::MAX), 64_128);
}

#[test]
fn versions() {
    assert_eq!(version().to_string(), VERSION);
}
