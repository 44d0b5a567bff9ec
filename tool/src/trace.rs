//! A session gone through call by call, with what each lane held and how far it lagged behind after each call: what a picture shows. Clock, starts and
//! backlogs are the library's own answers; a session is too short for its clock to be taken back.

use crate::fields::{setup_of, Fields};
use crate::figures::{Figures, LINE_RATE};
use zenfrosta::refusals::{CUT, OUT_OF_ORDER, UNKNOWN_TAG, WRONG_LENGTH};
use zenfrosta::{Plan, PlanLane, Record, Refusal, TABLE_SIZE};

/// What a call did.
#[derive(Clone, Copy, Debug, PartialEq, Eq)]
pub enum Did {
    /// A record was put into a lane.
    Put { lane: u8, mark: u32, length: u64 },
    /// A put was refused.
    PutRefused { lane: u8, number: u64 },
    /// A record was handed out; `from` is the clock before it, `lag` the lane's lag behind it, before the clock jumps if it does.
    Sent { lane: u8, train: u8, mark: u32, length: u64, from: u64, lag: i64 },
    /// The table was made fresh again.
    Restarted,
}

/// A call, and what is so after it. Calls that change nothing are left out.
#[derive(Clone, Debug)]
pub struct Step {
    pub did: Did,
    /// The clock, counted on over restarts.
    pub clock: u64,
    /// Of each lane of the setup, in their order: how many records it holds, and their bytes.
    pub held: Vec<(usize, u64)>,
    /// .. and its lag.
    pub lags: Vec<i64>,
}

/// A lane of the setup.
pub struct Lane {
    pub number: u8,
    pub plan: PlanLane,
    pub figures: Figures,
}

/// A session gone through.
pub struct Trace {
    pub framing: u64,
    pub lanes: Vec<Lane>,
    pub steps: Vec<Step>,
}

impl Trace {
    /// Goes through a session up to its end field, or to the first field that is refused, which is told too.
    pub fn of(session: &[u8]) -> Result<(Trace, Option<Refusal>), Refusal> {
        let setup = setup_of(session);
        let plan = Plan::from_setup(setup)?;
        let mut table = vec![0; TABLE_SIZE];
        zenfrosta::make(setup, &mut table)?;
        let lane = |(number, lane): (usize, &Option<PlanLane>)| {
            let plan_lane = (*lane)?;
            let figures = Figures::of(plan_lane.weight, plan_lane.longest, plan.framing);
            Some(Lane { number: number as u8, plan: plan_lane, figures })
        };
        let lanes: Vec<Lane> = plan.lanes.iter().enumerate().filter_map(lane).collect();
        let mut walk = Walk {
            bytes: vec![0; lanes.len()],
            trace: Trace { framing: u64::from(plan.framing), lanes, steps: Vec::new() },
            table,
            clock: 0,
            gone: 0,
        };
        let refused = walk.requests(session, setup.len());
        Ok((walk.trace, refused))
    }
}

struct Walk {
    trace: Trace,
    table: Vec<u8>,
    /// The bytes that each lane holds.
    bytes: Vec<u64>,
    /// The clock of the present table.
    clock: u64,
    /// The clocks of tables before a restart, together.
    gone: u64,
}

impl Walk {
    fn index(&self, lane: u8) -> Option<usize> {
        self.trace.lanes.iter().position(|known| known.number == lane)
    }

    fn charge(&self, length: u64) -> u64 {
        length + self.trace.framing
    }

    /// Goes through the requests from a place on; the refusal of a field, as a run gives it.
    fn requests(&mut self, session: &[u8], from: usize) -> Option<Refusal> {
        let refused = |number: u64, place: usize| Some(Refusal { number, place: Some(place as u64) });
        let mut at = from;
        for field in Fields::new(&session[from..]) {
            let value = field.value;
            match (field.tag, value.len()) {
                (0x20, 7) => self.put(value[0], 0, field.number(1, 4) as u32, field.number(5, 2)),
                (0x26, 8) => self.put(value[0], value[1], field.number(2, 4) as u32, field.number(6, 2)),
                (0x21, 0) => self.take(),
                (0x22, 0) | (0x23, 0) | (0x24, 1) => {}
                (0x25, 0) => self.restart(),
                (0x7F, 0) => {
                    let after = from + field.end();
                    return if after < session.len() { refused(OUT_OF_ORDER, after) } else { None };
                }
                _ => break,
            }
            at = from + field.end();
        }
        // Tag and length are looked at before the value is.
        let number = match session[at..] {
            [tag, high, low, ..] => match (tag, u16::from_be_bytes([high, low])) {
                (0x20, 7) | (0x21..=0x23 | 0x25 | 0x7F, 0) | (0x24, 1) | (0x26, 8) => CUT,
                (0x20..=0x26 | 0x7F, _) => WRONG_LENGTH,
                _ => UNKNOWN_TAG,
            },
            _ => CUT,
        };
        refused(number, at)
    }

    fn put(&mut self, lane: u8, train: u8, mark: u32, length: u64) {
        let Some(index) = self.index(lane) else { return };
        match zenfrosta::put_train(&mut self.table, lane, train, mark, length) {
            Err(refusal) => self.step(Did::PutRefused { lane, number: refusal.number }),
            Ok(_) => {
                self.bytes[index] += length;
                self.read_clock();
                self.step(Did::Put { lane, mark, length });
            }
        }
    }

    fn take(&mut self) {
        let Ok(record) = zenfrosta::take(&mut self.table) else { return };
        let Some(index) = self.index(record.lane) else { return };
        let from = self.clock;
        // Where the clock is before it jumps, if it does.
        let sent = from + LINE_RATE * self.charge(record.length);
        self.bytes[index] -= record.length;
        let (records, time) = self.backlog(record.lane);
        let start = if records == 0 { time.max(sent) } else { time };
        let lag = sent as i64 - start as i64;
        self.read_clock();
        let from = self.gone + from;
        let Record { lane, train, mark, length } = record;
        self.step(Did::Sent { lane, train, mark, length, from, lag });
    }

    fn restart(&mut self) {
        if zenfrosta::restart(&mut self.table).is_ok() {
            self.gone += self.clock;
            self.clock = 0;
            self.bytes.fill(0);
            self.step(Did::Restarted);
        }
    }

    fn read_clock(&mut self) {
        self.clock = zenfrosta::clock(&self.table).unwrap_or(self.clock);
    }

    /// How many records wait in a lane; its start, or its finish where none does.
    fn backlog(&self, lane: u8) -> (u64, u64) {
        zenfrosta::backlog(&self.table, lane).map_or((0, 0), |backlog| (backlog.records, backlog.time))
    }

    fn lag(&self, lane: u8) -> i64 {
        zenfrosta::lag(&self.table, lane).unwrap_or(0)
    }

    fn step(&mut self, did: Did) {
        let count = |lane: &Lane| self.backlog(lane.number).0 as usize;
        let held = self.trace.lanes.iter().map(count).zip(self.bytes.iter().copied()).collect();
        let lags = self.trace.lanes.iter().map(|lane| self.lag(lane.number)).collect();
        self.trace.steps.push(Step { did, clock: self.gone + self.clock, held, lags });
    }
}

#[cfg(test)]
mod tests {
    use super::*;
    use crate::noise::Noise;
    use zenfrosta::{answer_area, run, Stop, MOST_REQUESTS};

    fn session(text: &str) -> Vec<u8> {
        let input = crate::files::Input { name: "test".to_string(), bytes: text.as_bytes().to_vec() };
        crate::script::read(&input).expect("a good text").bytes
    }

    fn clocks(text: &str) -> Vec<u64> {
        let (trace, refused) = Trace::of(&session(text)).expect("a good setup");
        assert_eq!(refused, None);
        trace.steps.iter().map(|step| step.clock).collect()
    }

    #[test]
    fn the_clock_of_document_01() {
        let text = "format 1\nlane 0 512 1500\nlane 1 256 1500\nput 0 1 1000\nput 1 2 1000\nput 0 3 500\ntake\ntake\ntake\nput 0 4 100";
        // M1, M2
        assert_eq!(clocks(text), [0, 0, 0, 1_024_000, 1_536_000, 2_560_000, 2_560_000]);
        // M4
        let text = "format 1\nlane 0 1 64\nput 0 1 64\ntake\nput 0 1 64";
        assert_eq!(clocks(text), [0, 65_536, 67_108_864]);
    }

    #[test]
    fn refused_where_a_run_is() {
        let mut noise = Noise(7);
        let good = session(
            "framing 3\nlane 0 512\nlane 1 256 64\nshared 1\nput 0 1 9\nlag 1\ntake\nlook\nsets\nput 1 7 2 64\nrestart",
        );
        for _ in 0..3_000 {
            let mut bytes = good.clone();
            for _ in 0..noise.below(3) {
                let at = noise.below(bytes.len());
                bytes[at] = [noise.below(256) as u8, 0, 1, 0x7F, 0x25][noise.below(5)];
            }
            bytes.truncate(bytes.len() - noise.below(9));
            let mut table = vec![0; TABLE_SIZE];
            let mut answers = vec![0; answer_area(MOST_REQUESTS)];
            let told = match run(&bytes, MOST_REQUESTS, &mut table, &mut answers).stop {
                Stop::Refused(refusal) => Some(refusal),
                _ => None,
            };
            // Of a setup that is cut a session says where it is, and a setup alone that it ends there: the same.
            let found = Trace::of(&bytes).map_or_else(Some, |(_, refused)| refused);
            assert_eq!(found, told, "{bytes:02X?}");
        }
    }

    #[test]
    fn lags_follow_the_clock() {
        let mut noise = Noise(11);
        let mut text = "framing 5\nlane 0 400 1500\nlane 1 3 64\nlane 9 77 300\nshared 9\n".to_string();
        for mark in 0..900 {
            let (lane, longest) = [(0, 1500), (1, 64), (9, 300)][noise.below(3)];
            text += &match noise.below(2) {
                0 if lane == 9 => format!("put 9 {} {mark} {}\n", noise.below(8), 1 + noise.below(longest)),
                0 => format!("put {lane} {mark} {}\n", 1 + noise.below(longest)),
                _ => "take\n".to_string(),
            };
        }
        let (trace, _) = Trace::of(&session(&text)).expect("a good setup");
        let mut last = 0;
        for step in &trace.steps {
            assert!(step.clock >= last);
            last = step.clock;
        }
        assert!(trace.steps.len() > 500);
    }
}
