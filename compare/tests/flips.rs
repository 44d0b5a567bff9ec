//! Bits turned over, one at a time, where what must come of it is plain.

use compare::flips::{count, tables, total, Count};
use compare::layout::{self, DEPTH_WORD};
use compare::on_words::{Lapse, OnWords};

/// The count of a byte range of a table.
fn counted(table: &[u8], bytes: std::ops::Range<usize>) -> Count {
    let mut unit = OnWords { lapse: Lapse::None };
    total(&count(&mut unit, table, 8 * bytes.start..8 * bytes.end).expect("the reader and the unit agree"))
}

#[test]
fn the_depth_number_is_seen_and_marks_and_free_bytes_are_not() {
    let tables = tables(&mut OnWords { lapse: Lapse::None });
    for (name, table) in &tables {
        let depth = counted(table, 8 * DEPTH_WORD..8 * DEPTH_WORD + 8);
        assert_eq!((depth.seen, depth.other), (64, 0), "{name}");
    }
    // The full table's first lane holds records at all of its places; the first mark is that of some held record.
    let (_, full) = &tables[2];
    let mark = counted(full, layout::mark_byte(0, 0)..layout::mark_byte(0, 1));
    assert_eq!((mark.seen, mark.other), (0, 32));
    // Nothing is held in the fresh one.
    let (_, fresh) = &tables[0];
    let mark = counted(fresh, layout::mark_byte(0, 0)..layout::mark_byte(0, 1));
    assert_eq!((mark.seen, mark.other), (0, 0));
    // Bytes behind the page's part mean nothing in any.
    for (name, table) in &tables {
        let free = counted(table, layout::part::END..layout::part::END + 4);
        assert_eq!((free.bits, free.seen, free.other), (32, 0, 0), "{name}");
    }
}
