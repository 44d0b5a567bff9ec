//! Settings pages: what is read, each refusal with its place at both sides of its edge, and which fault of several is told.

use compare::fields::Fault;
use compare::pages::draw::{self, bare, field};
use compare::pages::driver::{compare, Tally};
use compare::pages::frames;
use compare::pages::reader::read;
use compare::pages::slips::{Slip, Slipped, ALL};
use compare::pages::{EDITION, END, SETTINGS};
use compare::rng::Rng;
use std::path::Path;

/// Format 1, lane 3 with weight 7 and no longest.
const SETUP: &[u8] = &[1, 0, 2, 0, 1, 0x10, 0, 3, 3, 0, 7, 0x7F, 0, 0];

fn page(fields: &[Vec<u8>]) -> Vec<u8> {
    fields.concat()
}

fn edition(n: u16) -> Vec<u8> {
    field(EDITION, &n.to_be_bytes())
}

fn settings() -> Vec<u8> {
    field(SETTINGS, SETUP)
}

fn end() -> Vec<u8> {
    field(END, &[])
}

fn refused(fields: &[Vec<u8>]) -> (u8, u64) {
    let Fault { number, place } = read(&page(fields)).expect_err("a page that is refused");
    (number, place)
}

#[test]
fn an_edition_and_a_setup() {
    for n in [0, 1, 255, 256, 65_535] {
        let read = read(&page(&[edition(n), settings(), end()])).expect("a page of the form");
        assert_eq!(read.edition, n);
        assert_eq!(compare::setup::whole(SETUP), Ok(read.setup));
    }
}

#[test]
fn skipped_fields_count_for_nothing() {
    let plain = page(&[edition(9), settings(), end()]);
    for between in [vec![], field(0x80, &[]), field(0xFF, &end()), field(0x99, &[0; 300])] {
        for after in [vec![], field(0x80, &settings()), [field(0x81, &[1]), field(0x82, &[2, 3])].concat()] {
            let whole = page(&[edition(9), between.clone(), settings(), after.clone(), end()]);
            assert_eq!(read(&whole), read(&plain));
            assert_eq!(bare(&whole), plain);
        }
    }
}

#[test]
fn the_order_of_fields() {
    let skip = || field(0x80, &[]);
    assert_eq!(refused(&[skip(), edition(9), settings(), end()]), (4, 0), "before 0x40");
    assert_eq!(refused(&[edition(9), settings(), end(), skip()]), (4, 25), "behind 0x7F");
    assert_eq!(refused(&[settings(), edition(9), end()]), (4, 0));
    assert_eq!(refused(&[end()]), (4, 0));
    assert_eq!(refused(&[edition(9), edition(10), settings(), end()]), (4, 5));
    assert_eq!(refused(&[edition(9), end()]), (4, 5));
    assert_eq!(refused(&[edition(9), skip(), end()]), (4, 8));
    assert_eq!(refused(&[edition(9), settings(), settings(), end()]), (4, 22));
    assert_eq!(refused(&[edition(9), settings(), end(), vec![0]]), (4, 25));
    for fields in [&[][..], &[edition(9)], &[edition(9), skip()], &[edition(9), settings()]] {
        assert_eq!(refused(fields), (1, fields.concat().len() as u64), "a page that just stops");
    }
}

#[test]
fn tags_and_lengths() {
    for tag in [0x00, 0x01, 0x3F, 0x42, 0x7E] {
        assert_eq!(refused(&[edition(9), field(tag, &[]), settings(), end()]), (2, 5), "{tag:#x}");
        assert_eq!(refused(&[field(tag, &[])]), (2, 0), "{tag:#x}");
    }
    assert_eq!(refused(&[field(EDITION, &[9])]), (3, 0));
    assert_eq!(refused(&[field(EDITION, &[0, 0, 9])]), (3, 0));
    assert_eq!(refused(&[edition(9), settings(), field(END, &[0])]), (3, 22));
    assert_eq!(refused(&[edition(9), field(END, &[0])]), (3, 5), "3 before 4");
    assert_eq!(refused(&[edition(9), vec![0x80, 0, 2, 0]]), (1, 5));
    assert_eq!(refused(&[vec![0x41, 0, 2, 0]]), (1, 0), "1 of the value before 4");
}

#[test]
fn the_setup_ends_with_its_value() {
    let short = |n: usize| field(SETTINGS, &SETUP[..n]);
    assert_eq!(refused(&[edition(9), short(13), end()]), (1, 19), "the inner 0x7F is cut");
    assert_eq!(refused(&[edition(9), short(11), end()]), (1, 19), "no inner 0x7F: the value's end");
    assert_eq!(refused(&[edition(9), short(9), end()]), (1, 13), "the inner lane field runs past the value");
    assert_eq!(refused(&[edition(9), short(0), end()]), (1, 8));
    assert_eq!(refused(&[edition(9), field(SETTINGS, &[SETUP, &[0]].concat()), end()]), (4, 22));
    let inner = [&SETUP[..5], &[0x80, 0, 0], &SETUP[5..]].concat();
    assert_eq!(refused(&[edition(9), field(SETTINGS, &inner), end()]), (2, 13), "0x80 inside is unknown");
    let lane = [&SETUP[..8], &[64], &SETUP[9..]].concat();
    assert_eq!(
        refused(&[edition(9), field(0x80, &[0; 7]), field(SETTINGS, &lane), vec![0]]),
        (51, 26),
        "before a later fault"
    );
}

#[test]
fn the_second_build_agrees_and_every_slip_is_found() {
    let mut tally = Tally::default();
    let found = compare(&mut Slipped(Slip::None), 7, 0, |done| done < 20_000, &mut tally);
    assert!(found.is_ok(), "{found:?}");
    assert!(tally.skipped > 1_000, "{tally}");
    for number in [1, 2, 3, 4, 6, 50, 51, 52, 53, 54] {
        assert!(tally.refused.contains_key(&number), "no {number} among {tally}");
    }
    for &slip in ALL {
        let found = compare(&mut Slipped(slip), 7, 0, |done| done < 3_000, &mut Tally::default());
        assert!(found.is_err(), "{slip:?} was not found");
    }
}

/// The lines that `page_vectors` must print are worked out by a third program, in Python.
#[test]
fn the_vectors_say_the_same() {
    let folder = Path::new(env!("CARGO_MANIFEST_DIR")).join("../crates/page_vectors");
    let given = std::fs::read(folder.join("stdin")).expect("the frames");
    let lines = std::fs::read_to_string(folder.join("stdout")).expect("the lines");
    let pages = frames::pages(&given);
    assert!(pages.len() > 1_000);
    assert_eq!(pages.len(), lines.lines().count());
    for (page, line) in pages.into_iter().zip(lines.lines()) {
        assert_eq!(frames::line(page), line, "{page:02X?}");
    }
}

/// Where PAGE_VECTORS names the unit's program, drawn pages are read by it too.
#[test]
fn the_program_says_the_same() {
    let Some(program) = std::env::var_os("PAGE_VECTORS") else {
        return;
    };
    let mut case = 0;
    for _ in 0..100 {
        let mut pages = vec![];
        let mut size = 0;
        loop {
            let page = draw::page(&mut Rng::of_case(40, case));
            size += frames::frame(&page).len();
            if size > frames::MOST {
                break;
            }
            pages.push(page);
            case += 1;
        }
        let found = frames::compare(Path::new(&program), &pages);
        assert!(found.is_ok(), "{found:?}");
    }
    println!("{case} pages: no difference");
}
