//! The stand-in's run: it writes each line into the lent area as it goes.

use super::engine::Engine;
use super::reader::{number, of_requests, Reader, Refused};
use super::{Slip, StandIn, TABLE_SIZE};
use crate::calls::Taken;
use crate::fields::Fault;
use crate::session::{Run, Stop};

struct Lines<'a> {
    area: &'a mut [u8],
    written: usize,
}

impl Lines<'_> {
    fn write(&mut self, line: &str) {
        let end = self.written + line.len();
        self.area[self.written..end].copy_from_slice(line.as_bytes());
        self.written = end;
    }
}

fn stopped(number: u8, place: usize) -> Stop {
    Stop::Refused(Fault::at(number, place))
}

pub fn run(unit: &mut StandIn, session: &[u8], limit: u64, table: &mut [u8], answers: &mut [u8]) -> Run {
    let slip = unit.slip;
    let lines_asked = if slip == Slip::AreaTooSmall { limit.wrapping_add(1) } else { limit.wrapping_add(2) };
    let area = limit > 1_000 || (answers.len() as u64) < 64 * lines_asked;
    let short = table.len() < TABLE_SIZE;
    if area && !(short && slip == Slip::TableBeforeArea) {
        return Run { answered: 0, written: 0, stop: stopped(17, 0) };
    }
    if short {
        return Run { answered: 0, written: 0, stop: stopped(7, 0) };
    }
    let mut lines = Lines { area: answers, written: 0 };
    let mut reader = Reader::new(session, slip);
    let plan = match reader.setup() {
        Ok(plan) => plan,
        Err((number, place)) => {
            lines.write(&format!("no {number} {place}\n"));
            return Run { answered: 0, written: lines.written as u64, stop: stopped(number, place) };
        }
    };
    let mut engine = Engine::new(&plan, slip);
    lines.write(&format!("lanes {}\n", plan.lanes.len()));
    let (answered, stop) = requests(&mut reader, &mut engine, &mut lines, limit, slip);
    if let Stop::Refused(fault) = stop {
        lines.write(&format!("no {} {}\n", fault.number, fault.place));
    }
    lines.write(&format!("end {answered}\n"));
    if slip == Slip::WritesPastLine && lines.written < lines.area.len() {
        lines.area[lines.written] = 0;
    }
    if slip == Slip::RunForgets && matches!(stop, Stop::Refused(_)) {
        engine = Engine::new(&plan, slip);
    }
    let written = lines.written as u64;
    unit.shelf.put(engine, table);
    Run { answered, written, stop }
}

fn requests(
    reader: &mut Reader,
    engine: &mut Engine,
    lines: &mut Lines,
    limit: u64,
    slip: Slip,
) -> (u64, Stop) {
    let first = reader.place();
    let mut answered = 0;
    let mut walked = 0;
    loop {
        let full = walked >= limit;
        if full && !matches!(slip, Slip::LimitAfterField | Slip::LimitAfterEnd) {
            return (answered, Stop::Limit);
        }
        let request = request(reader, slip);
        if full && (slip == Slip::LimitAfterField || !matches!(request, Ok(None))) {
            return match request {
                Err((number, place)) if slip == Slip::LimitAfterField => (answered, stopped(number, place)),
                _ => (answered, Stop::Limit),
            };
        }
        match request {
            Err((number, place)) => {
                let place = if slip == Slip::PlaceFromRequests { place - first } else { place };
                return (answered + u64::from(slip == Slip::RefusedFieldCounted), stopped(number, place));
            }
            Ok(None) => return (answered, Stop::End),
            Ok(Some((tag, value))) => {
                let line = line(engine, tag, value, slip);
                lines.write(&line);
                walked += 1;
                answered += u64::from(slip != Slip::NoLineNotCounted || !line.starts_with("no"));
            }
        }
    }
}

type Request<'a> = Option<(u8, &'a [u8])>;

/// A request, or none at the end field.
fn request<'a>(reader: &mut Reader<'a>, slip: Slip) -> Result<Request<'a>, Refused> {
    let at = reader.place();
    if slip == Slip::FramingOutOfOrderInRequests && reader.left() > 2 && reader.next() == 0x11 {
        return Err((4, at));
    }
    let (tag, value) = reader.field(of_requests)?;
    if slip == Slip::RequestLaneJudged && value.first().is_some_and(|lane| *lane > 63) {
        return Err((51, at + 3));
    }
    if tag != 0x7F {
        return Ok(Some((tag, value)));
    }
    if reader.left() > 0 && slip != Slip::TrailingByteAfterEnd {
        return Err((4, reader.place()));
    }
    Ok(None)
}

/// A record's line; a shared lane's ends with the train.
fn record(word: &str, r: Taken, engine: &Engine, slip: Slip) -> String {
    let line = format!("{word} {} {} {}", r.lane, r.mark, r.length);
    let told = match slip {
        Slip::LineWithoutTrain => false,
        Slip::LineWithTrainAlways => true,
        Slip::LineWithoutTrainZero => r.train != 0,
        _ => engine.shared(r.lane),
    };
    if told {
        format!("{line} {}", r.train)
    } else {
        line
    }
}

fn line(engine: &mut Engine, tag: u8, value: &[u8], slip: Slip) -> String {
    let accepted = |ahead: u64| {
        if slip == Slip::LineWithoutNumber {
            "put ok".to_string()
        } else {
            format!("put ok {ahead}")
        }
    };
    let answer = match tag {
        0x20 => engine.put(value[0], 0, number(&value[1..5]) as u32, number(&value[5..7])).map(accepted),
        0x26 if slip == Slip::TrainBehindMark => {
            engine.put(value[0], value[5], number(&value[1..5]) as u32, number(&value[6..8])).map(accepted)
        }
        0x26 => {
            engine.put(value[0], value[1], number(&value[2..6]) as u32, number(&value[6..8])).map(accepted)
        }
        0x21 => engine.take().map(|r| record("take", r, engine, slip)),
        0x22 => engine.look().map(|r| record("look", r, engine, slip)),
        0x23 => Ok(engine.sets()).map(|[a, b, c, d]| format!("sets {a} {b} {c} {d}")),
        0x24 if slip == Slip::SignLost => {
            engine.lag(value[0]).map(|lag| format!("lag {}", lag.unsigned_abs()))
        }
        0x24 => engine.lag(value[0]).map(|lag| format!("lag {lag}")),
        _ => engine.restart().map(|()| "restart ok".to_string()),
    };
    let line = answer.unwrap_or_else(|refusal| format!("no {refusal}"));
    if slip == Slip::LineFeedMissing && tag == 0x25 {
        line
    } else {
        line + "\n"
    }
}
