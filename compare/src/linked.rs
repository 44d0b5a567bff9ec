//! The unit's static library through its C boundary (feature `unit`).
//!
//! Every function takes byte areas as pointer and length and answers a 64-bit number: 0 for done, else document
//! 01's refusal number, or 255 where the lent answer buffer is shorter than 32 bytes and nothing was done. Values
//! come in the answer buffer as four 64-bit words, low byte first. A refusal's words are its place and 1, or 0 and 0
//! where it has none.

#![allow(unsafe_code)]

use crate::calls::{Answer, Taken};
use crate::fields::Fault;
use crate::session::{Run, Stop};
use crate::shown::Ask;
use crate::unit::Unit;

extern "C" {
    fn zf_table_size() -> u64;
    fn zf_make(
        setup: *const u8,
        setup_len: usize,
        table: *mut u8,
        table_len: usize,
        out: *mut u8,
        out_len: usize,
    ) -> u64;
    fn zf_put(
        table: *mut u8,
        table_len: usize,
        lane: u8,
        mark: u32,
        length: u64,
        out: *mut u8,
        out_len: usize,
    ) -> u64;
    fn zf_put_train(
        table: *mut u8,
        table_len: usize,
        lane: u8,
        train: u8,
        mark: u32,
        length: u64,
        out: *mut u8,
        out_len: usize,
    ) -> u64;
    fn zf_take(table: *mut u8, table_len: usize, out: *mut u8, out_len: usize) -> u64;
    fn zf_look(table: *mut u8, table_len: usize, out: *mut u8, out_len: usize) -> u64;
    fn zf_sets(table: *mut u8, table_len: usize, out: *mut u8, out_len: usize) -> u64;
    fn zf_lag(table: *mut u8, table_len: usize, lane: u8, out: *mut u8, out_len: usize) -> u64;
    fn zf_clock(table: *const u8, table_len: usize, out: *mut u8, out_len: usize) -> u64;
    fn zf_lane(table: *const u8, table_len: usize, lane: u8, out: *mut u8, out_len: usize) -> u64;
    fn zf_backlog(table: *const u8, table_len: usize, lane: u8, out: *mut u8, out_len: usize) -> u64;
    fn zf_record(
        table: *const u8,
        table_len: usize,
        lane: u8,
        before: u64,
        out: *mut u8,
        out_len: usize,
    ) -> u64;
    fn zf_train_record(
        table: *const u8,
        table_len: usize,
        lane: u8,
        train: u8,
        before: u64,
        out: *mut u8,
        out_len: usize,
    ) -> u64;
    fn zf_wait(table: *const u8, table_len: usize, lane: u8, ahead: u64, out: *mut u8, out_len: usize)
        -> u64;
    fn zf_restart(table: *mut u8, table_len: usize, out: *mut u8, out_len: usize) -> u64;
    fn zf_offer(
        table: *mut u8,
        table_len: usize,
        page: *const u8,
        page_len: usize,
        out: *mut u8,
        out_len: usize,
    ) -> u64;
    fn zf_edition(table: *const u8, table_len: usize, out: *mut u8, out_len: usize) -> u64;
    fn zf_run(
        session: *const u8,
        session_len: usize,
        limit: u64,
        table: *mut u8,
        table_len: usize,
        answers: *mut u8,
        answers_len: usize,
        out: *mut u8,
        out_len: usize,
    ) -> u64;
}

/// The answer buffer's least length.
const OUT: usize = 32;
/// Given where the answer buffer is shorter.
pub const OUT_SHORT: u64 = 255;
/// A run's limit or answer area is out of bounds: the one refusal of a run that has no place.
const RUN_BOUNDS: u8 = 17;
/// Stands for an answer that the boundary cannot give, such as a lane over 255: no rule gives it, so it differs.
const OUT_OF_RANGE: u8 = 254;

/// The linked library.
pub struct Linked;

/// The four words of an answer buffer.
fn words(out: &[u8; OUT]) -> [u64; 4] {
    let word = |at: usize| u64::from_le_bytes(out[8 * at..8 * at + 8].try_into().expect("eight bytes"));
    [word(0), word(1), word(2), word(3)]
}

fn refusal(number: u64) -> u8 {
    u8::try_from(number).unwrap_or(OUT_OF_RANGE)
}

/// Lends an answer buffer to a call: its words, or the refusal with the buffer's words.
fn call(call: impl FnOnce(*mut u8, usize) -> u64) -> Result<[u64; 4], (u8, [u64; 4])> {
    let mut out = [0xA5; OUT];
    match call(out.as_mut_ptr(), out.len()) {
        0 => Ok(words(&out)),
        number => Err((refusal(number), words(&out))),
    }
}

/// A call that uses the first `used` words and has no place in a refusal; the words that it does not use are 0 (R13.1).
fn plain(used: usize, ask: impl FnOnce(*mut u8, usize) -> u64) -> Result<[u64; 4], u8> {
    match call(ask) {
        Ok(words) if words[used..].iter().all(|word| *word == 0) => Ok(words),
        Err((number, [0, 0, 0, 0])) => Err(number),
        _ => Err(OUT_OF_RANGE),
    }
}

fn taken(words: [u64; 4]) -> Result<Taken, u8> {
    let [lane, mark, length, train] = words;
    let lane = u8::try_from(lane).map_err(|_| OUT_OF_RANGE)?;
    let train = u8::try_from(train).map_err(|_| OUT_OF_RANGE)?;
    let mark = u32::try_from(mark).map_err(|_| OUT_OF_RANGE)?;
    Ok(Taken { lane, train, mark, length })
}

// SAFETY, for every call below: each pointer comes from a slice with its own length, the slices do not overlap, and
// the library keeps no pointer after it returns.
impl Unit for Linked {
    fn table_size(&self) -> usize {
        usize::try_from(unsafe { zf_table_size() }).expect("a size of at most 131,072")
    }

    fn documented_layout(&self) -> bool {
        true
    }

    fn make(&mut self, setup: &[u8], table: &mut [u8]) -> Result<u64, Fault> {
        let made = call(|out, len| unsafe {
            zf_make(setup.as_ptr(), setup.len(), table.as_mut_ptr(), table.len(), out, len)
        });
        match made {
            Ok([lanes, 0, 0, 0]) => Ok(lanes),
            // every refusal of making has a place
            Err((number, [place, 1, 0, 0])) => Err(Fault { number, place }),
            Ok(words) | Err((_, words)) => Err(Fault { number: OUT_OF_RANGE, place: words[1] }),
        }
    }

    fn put(&mut self, table: &mut [u8], lane: u8, mark: u32, length: u64) -> Result<u64, u8> {
        let (at, size) = (table.as_mut_ptr(), table.len());
        plain(1, |out, len| unsafe { zf_put(at, size, lane, mark, length, out, len) }).map(|words| words[0])
    }

    fn put_train(
        &mut self,
        table: &mut [u8],
        lane: u8,
        train: u8,
        mark: u32,
        length: u64,
    ) -> Result<u64, u8> {
        let (at, size) = (table.as_mut_ptr(), table.len());
        plain(1, |out, len| unsafe { zf_put_train(at, size, lane, train, mark, length, out, len) })
            .map(|words| words[0])
    }

    fn take(&mut self, table: &mut [u8]) -> Result<Taken, u8> {
        taken(plain(4, |out, len| unsafe { zf_take(table.as_mut_ptr(), table.len(), out, len) })?)
    }

    fn look(&mut self, table: &mut [u8]) -> Result<Taken, u8> {
        taken(plain(4, |out, len| unsafe { zf_look(table.as_mut_ptr(), table.len(), out, len) })?)
    }

    fn sets(&mut self, table: &mut [u8]) -> Result<[u64; 4], u8> {
        plain(4, |out, len| unsafe { zf_sets(table.as_mut_ptr(), table.len(), out, len) })
    }

    fn lag(&mut self, table: &mut [u8], lane: u8) -> Result<i64, u8> {
        plain(1, |out, len| unsafe { zf_lag(table.as_mut_ptr(), table.len(), lane, out, len) })
            .map(|words| words[0] as i64)
    }

    fn restart(&mut self, table: &mut [u8]) -> Result<(), u8> {
        plain(0, |out, len| unsafe { zf_restart(table.as_mut_ptr(), table.len(), out, len) }).map(|_| ())
    }

    fn offer(&mut self, table: &mut [u8], page: &[u8]) -> Answer {
        let (at, size) = (table.as_mut_ptr(), table.len());
        let offered = call(|out, len| unsafe { zf_offer(at, size, page.as_ptr(), page.len(), out, len) });
        match offered {
            Ok([0, 0, 0, 0]) => Answer::InForce,
            Ok([1, 0, 0, 0]) => Answer::Waits,
            // 10 and 60 have no place, what the reader finds has one
            Err((number @ (10 | 60), [0, 0, 0, 0])) => Answer::No(number),
            Err((number, [place, 1, 0, 0])) => Answer::Unread(Fault { number, place }),
            _ => Answer::No(OUT_OF_RANGE),
        }
    }

    fn show(&mut self, table: &mut [u8], ask: Ask) -> Option<Result<[u64; 4], u8>> {
        let (at, size) = (table.as_mut_ptr().cast_const(), table.len());
        Some(match ask {
            Ask::Clock => plain(1, |out, len| unsafe { zf_clock(at, size, out, len) }),
            Ask::Edition => plain(2, |out, len| unsafe { zf_edition(at, size, out, len) }),
            Ask::Lane(lane) => plain(4, |out, len| unsafe { zf_lane(at, size, lane, out, len) }),
            Ask::Backlog(lane) => plain(2, |out, len| unsafe { zf_backlog(at, size, lane, out, len) }),
            Ask::Record(lane, before) => {
                plain(4, |out, len| unsafe { zf_record(at, size, lane, before, out, len) })
            }
            Ask::TrainRecord(lane, train, before) => {
                plain(4, |out, len| unsafe { zf_train_record(at, size, lane, train, before, out, len) })
            }
            Ask::Wait(lane, ahead) => {
                plain(2, |out, len| unsafe { zf_wait(at, size, lane, ahead, out, len) })
            }
        })
    }

    fn run(&mut self, session: &[u8], limit: u64, table: &mut [u8], answers: &mut [u8]) -> Run {
        let answer = call(|out, len| unsafe {
            zf_run(
                session.as_ptr(),
                session.len(),
                limit,
                table.as_mut_ptr(),
                table.len(),
                answers.as_mut_ptr(),
                answers.len(),
                out,
                len,
            )
        });
        match answer {
            Ok([answered, written, kind, 0]) => Run { answered, written, stop: stop(kind) },
            Ok([answered, written, _, place]) => {
                Run { answered, written, stop: Stop::Refused(Fault { number: OUT_OF_RANGE, place }) }
            }
            Err((number, [answered, written, kind, place])) => {
                // 3: a refusal with a place; 2: one without, which is 17 alone, and then the place's word is 0
                let told = if number == RUN_BOUNDS { kind == 2 && place == 0 } else { kind == 3 };
                let number = if told { number } else { OUT_OF_RANGE };
                Run { answered, written, stop: Stop::Refused(Fault { number, place }) }
            }
        }
    }
}

/// Why a run stopped that was not refused: 0 the end field, 1 the limit.
fn stop(kind: u64) -> Stop {
    match kind {
        0 => Stop::End,
        1 => Stop::Limit,
        _ => Stop::Refused(Fault { number: OUT_OF_RANGE, place: kind }),
    }
}

/// With an answer buffer shorter than 32 bytes every call gives 255, and neither the table, the answer area nor the
/// buffer is written. Answers what is wrong.
pub fn short_buffers() -> Result<(), String> {
    let setup: &[u8] = &[0x01, 0, 2, 0, 1, 0x10, 0, 3, 0, 2, 0, 0x7F, 0, 0];
    let session = [setup, &[0x21, 0, 0, 0x7F, 0, 0]].concat();
    let page = [&[0x40, 0, 2, 0, 1, 0x41, 0, setup.len() as u8][..], setup, &[0x7F, 0, 0]].concat();
    let size = Linked.table_size();
    let mut table = vec![0x33; size];
    Linked.make(setup, &mut table).map_err(|fault| format!("a valid setup gave {fault}"))?;
    // A record is held, so that take, look and restart have something to do.
    Linked.put(&mut table, 0, 1, 64).map_err(|number| format!("a valid put gave {number}"))?;
    let before = table.clone();
    let mut answers = vec![0x44; 64 * 1_002];
    for length in 0..OUT {
        let mut out = [0x55; OUT];
        let (o, t) = (out.as_mut_ptr(), table.as_mut_ptr());
        let given = unsafe {
            [
                zf_make(setup.as_ptr(), setup.len(), t, size, o, length),
                zf_put(t, size, 0, 1, 64, o, length),
                zf_put_train(t, size, 0, 0, 1, 64, o, length),
                zf_take(t, size, o, length),
                zf_look(t, size, o, length),
                zf_sets(t, size, o, length),
                zf_lag(t, size, 0, o, length),
                zf_clock(t, size, o, length),
                zf_lane(t, size, 0, o, length),
                zf_backlog(t, size, 0, o, length),
                zf_record(t, size, 0, 0, o, length),
                zf_train_record(t, size, 0, 0, 0, o, length),
                zf_wait(t, size, 0, 0, o, length),
                zf_restart(t, size, o, length),
                zf_offer(t, size, page.as_ptr(), page.len(), o, length),
                zf_edition(t, size, o, length),
                zf_run(
                    session.as_ptr(),
                    session.len(),
                    1_000,
                    t,
                    size,
                    answers.as_mut_ptr(),
                    answers.len(),
                    o,
                    length,
                ),
            ]
        };
        let written = out != [0x55; OUT] || table != before || answers.iter().any(|byte| *byte != 0x44);
        if given != [OUT_SHORT; 17] || written {
            return Err(format!("an answer buffer of {length} bytes: {given:?}, written: {written}"));
        }
    }
    Ok(())
}
