//! The first session (docs/RULES.md, R16.3) through the calls and through the run, and a refusal of each shape.

use zenfrosta::*;

const SETUP: &[u8] = b"\x01\0\x02\0\x01\x10\0\x05\0\x02\0\x05\xDC\x10\0\x05\x01\x01\0\x05\xDC\x7F\0\0";
const REQUESTS: &[u8] = b"\x20\0\x07\0\0\0\0\x01\x03\xE8\x20\0\x07\x01\0\0\0\x02\x03\xE8\x20\0\x07\0\0\0\0\x03\x01\xF4\x23\0\0\x21\0\0\x21\0\0\x21\0\0\x21\0\0";
const END: &[u8] = b"\x7F\0\0";

fn made() -> Vec<u8> {
    let mut table = vec![0xA5; TABLE_SIZE];
    assert_eq!(make(SETUP, &mut table), Ok(2));
    table
}

fn refused<T>(number: u64, place: Option<u64>) -> Result<T, Refusal> {
    Err(Refusal { number, place })
}

#[test]
fn the_size_is_the_library_s() {
    assert_eq!(table_size(), TABLE_SIZE as u64);
}

#[test]
fn the_session_by_calls() {
    let mut t = made();
    assert_eq!(put(&mut t, 0, 1, 1000), Ok(0));
    assert_eq!(put(&mut t, 1, 2, 1000), Ok(0));
    assert_eq!(put(&mut t, 0, 3, 500), Ok(1));
    assert_eq!(sets(&t), Ok(Sets { er: 12_582_912, ir: 0, eb: 0, ib: 0 }));
    assert_eq!(look(&t), Ok(Record { lane: 0, train: 0, mark: 1, length: 1000 }));
    assert_eq!(restart(&mut t), refused(15, None));
    assert_eq!(take(&mut t), Ok(Record { lane: 0, train: 0, mark: 1, length: 1000 }));
    assert_eq!(take(&mut t), Ok(Record { lane: 0, train: 0, mark: 3, length: 500 }));
    assert_eq!(take(&mut t), Ok(Record { lane: 1, train: 0, mark: 2, length: 1000 }));
    assert_eq!(take(&mut t), refused(16, None));
    // M2
    assert_eq!(put(&mut t, 0, 4, 100), Ok(0));
    assert_eq!(lag(&t, 0), Ok(-512_000));
}

#[test]
fn refusals() {
    let mut t = made();
    let before = t.clone();
    assert_eq!(make(SETUP, &mut t[..TABLE_SIZE - 1]), refused(7, Some(0)));
    assert_eq!(make(&SETUP[..22], &mut t), refused(1, Some(21)));
    // A fault at byte 0 has a place, as has an empty setup's end.
    assert_eq!(make(b"\xFF\0\0", &mut t), refused(2, Some(0)));
    assert_eq!(make(b"", &mut t), refused(1, Some(0)));
    // Lane 0's weight is at bytes 9 and 10.
    let mut weightless = SETUP.to_vec();
    weightless[9] = 0;
    assert_eq!(make(&weightless, &mut t), refused(52, Some(9)));
    assert_eq!(put(&mut t, 2, 1, 1), refused(11, None));
    assert_eq!(put(&mut t, 0, 1, u64::MAX), refused(12, None));
    assert_eq!(look(&t[1..]), refused(10, None));
    assert_eq!(t, before);
}

#[test]
fn refusals_in_words() {
    let told = |number, place| Refusal { number, place }.to_string();
    assert_eq!(told(52, Some(9)), "refused with 52 at byte 9: a weight is not 1 to 1,024");
    assert_eq!(told(16, None), "refused with 16: no record is held");
    // 5 is no refusal.
    assert_eq!(told(5, None), "refused with 5: no number of the list");
}

#[test]
fn the_session_by_run() {
    let session = [SETUP, REQUESTS, END].concat();
    let mut t = vec![0; TABLE_SIZE];
    let mut a = vec![0; answer_area(MOST_REQUESTS)];
    let run_ = run(&session, MOST_REQUESTS, &mut t, &mut a);
    let text = "lanes 2\nput ok 0\nput ok 0\nput ok 1\nsets 12582912 0 0 0\ntake 0 1 1000\ntake 0 3 500\ntake 1 2 1000\nno 16\nend 8\n";
    assert_eq!(run_, Run { answered: 8, written: text.len(), stop: Stop::End });
    assert_eq!(&a[..text.len()], text.as_bytes());
    assert_eq!(run(&session, 8, &mut t, &mut a).stop, Stop::Limit);
    let byte_after = [&session[..], b"\0"].concat();
    let place = Some(session.len() as u64);
    assert_eq!(run(&byte_after, 9, &mut t, &mut a).stop, Stop::Refused(Refusal { number: 4, place }));
    let at_0 = Stop::Refused(Refusal { number: 2, place: Some(0) });
    assert_eq!(run(b"\xFF\0\0", 9, &mut t, &mut a).stop, at_0);
    assert_eq!(run(&session, 1_001, &mut t, &mut a).stop, Stop::Refused(Refusal { number: 17, place: None }));
}
