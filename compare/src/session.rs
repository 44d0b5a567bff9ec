//! Sessions (R10): setup, requests and end field, the run's result, its lines, and the program around it.

use crate::calls::Call;
use crate::fields::{field, Fault, Part};
use crate::numbers::{refusal, *};
use crate::rules::State;
use crate::setup;
use std::fmt::{self, Write};

pub const PUT: u8 = 0x20;
pub const TAKE: u8 = 0x21;
pub const LOOK: u8 = 0x22;
pub const SETS: u8 = 0x23;
pub const LAG: u8 = 0x24;
pub const RESTART: u8 = 0x25;
/// R10.1: a put that names its train.
pub const PUT_TRAIN: u8 = 0x26;
pub const END: u8 = 0x7F;

const FIELDS: &Part = &[
    (PUT, &[7]),
    (TAKE, &[0]),
    (LOOK, &[0]),
    (SETS, &[0]),
    (LAG, &[1]),
    (RESTART, &[0]),
    (PUT_TRAIN, &[8]),
    (END, &[0]),
];

/// R10.11: the reason for the stop.
#[derive(Clone, Copy, Debug, PartialEq, Eq)]
pub enum Stop {
    End,
    Limit,
    Refused(Fault),
}

/// The run's result.
#[derive(Clone, Copy, Debug, PartialEq, Eq)]
pub struct Run {
    /// Requests answered; those answered by a `no` line count.
    pub answered: u64,
    /// Answer bytes written.
    pub written: u64,
    pub stop: Stop,
}

impl fmt::Display for Run {
    fn fmt(&self, f: &mut fmt::Formatter) -> fmt::Result {
        write!(f, "{} answered, {} bytes, stopped by {:?}", self.answered, self.written, self.stop)
    }
}

/// All that a run does: its result, its text, and the table's contents after it. No contents: the lent table
/// stays as it was.
#[derive(Clone, Debug, PartialEq, Eq)]
pub struct Outcome {
    pub result: Run,
    pub text: String,
    pub state: Option<State>,
}

/// A run refused before or in its setup: nothing was answered and the lent table stays.
fn refused(fault: Fault, text: String) -> Outcome {
    let result = Run { answered: 0, written: text.len() as u64, stop: Stop::Refused(fault) };
    Outcome { result, text, state: None }
}

/// A run on lent areas: 17, then 7, which write nothing; then the setup (R10.4).
pub fn run(session: &[u8], limit: u64, table: usize, table_size: usize, answers: usize) -> Outcome {
    if limit > LIMIT || (answers as u128) < BYTES_PER_LINE * (u128::from(limit) + 2) {
        return refused(Fault::at(refusal::RUN_AREA, 0), String::new());
    }
    if table < table_size {
        return refused(Fault::at(refusal::TABLE_SHORT, 0), String::new());
    }
    walk(session, limit)
}

/// The walk through the session's fields, on areas that are large enough.
pub fn walk(session: &[u8], limit: u64) -> Outcome {
    let (setup, mut place) = match setup::read(session) {
        Ok(read) => read,
        Err(fault) => return refused(fault, format!("{fault}\n")),
    };
    let mut state = State::fresh(&setup);
    let mut text = format!("lanes {}\n", setup.lanes.len());
    let mut answered = 0;
    let stop = loop {
        // R10.7: before each field, the end field included.
        if answered == limit {
            break Stop::Limit;
        }
        match request(session, place) {
            Err(fault) => break Stop::Refused(fault),
            Ok(Request::End) => break Stop::End,
            Ok(Request::Call(call, next)) => {
                let line = state.answer(&call).line(|lane| state.shared(lane));
                writeln!(text, "{line}").expect("a string takes every line");
                answered += 1;
                place = next;
            }
        }
    };
    if let Stop::Refused(fault) = stop {
        writeln!(text, "{fault}").expect("a string takes every line");
    }
    writeln!(text, "end {answered}").expect("a string takes every line");
    Outcome { result: Run { answered, written: text.len() as u64, stop }, text, state: Some(state) }
}

enum Request {
    Call(Call, usize),
    End,
}

/// The request at `place`. Its numbers are not judged here: 10 to 16, 70 and 71 answer the request.
fn request(session: &[u8], place: usize) -> Result<Request, Fault> {
    let field = field(session, place, FIELDS)?;
    let call = match (field.tag, field.value) {
        (PUT, &[lane, m3, m2, m1, m0, l1, l0]) => Call::Put {
            lane,
            mark: u32::from_be_bytes([m3, m2, m1, m0]),
            length: u64::from(u16::from_be_bytes([l1, l0])),
        },
        (PUT_TRAIN, &[lane, train, m3, m2, m1, m0, l1, l0]) => Call::PutTrain {
            lane,
            train,
            mark: u32::from_be_bytes([m3, m2, m1, m0]),
            length: u64::from(u16::from_be_bytes([l1, l0])),
        },
        (TAKE, _) => Call::Take,
        (LOOK, _) => Call::Look,
        (SETS, _) => Call::Sets,
        (LAG, &[lane]) => Call::Lag { lane },
        (RESTART, _) => Call::Restart,
        // A byte after the end field: 4 at that byte.
        _ if field.next < session.len() => return Err(Fault::at(refusal::ORDER, field.next)),
        _ => return Ok(Request::End),
    };
    Ok(Request::Call(call, field.next))
}

/// What the program prints for its standard input.
pub fn program(input: &[u8]) -> String {
    if input.len() > PROGRAM_INPUT {
        return format!("no {}\n", refusal::INPUT_LONG);
    }
    walk(input, LIMIT).text
}
