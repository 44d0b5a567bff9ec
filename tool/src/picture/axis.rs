//! The picture's axis: the clock, with far jumps cut short.

use crate::figures::LINE_RATE;
use crate::trace::{Did, Trace};

/// A part of the clock's way.
#[derive(Clone, Copy, Debug, PartialEq)]
pub struct Part {
    pub from: u64,
    pub to: u64,
    /// The clock jumps here: nothing is sent.
    pub jump: bool,
    /// .. so far that the axis is broken.
    pub broken: bool,
    pub x: f64,
    pub width: f64,
}

pub struct Axis {
    pub parts: Vec<Part>,
    pub left: f64,
    pub right: f64,
}

/// Room for what is so before the first call and behind the last one.
const PAD: f64 = 14.0;

/// The widest that a broken jump is drawn.
const BREAK: f64 = 26.0;

impl Axis {
    /// The axis of a trace from x `left` to `right`.
    pub fn of(trace: &Trace, left: f64, right: f64) -> Axis {
        let mut ways: Vec<(u64, u64, bool)> = Vec::new();
        let mut clock = 0;
        for step in &trace.steps {
            if let Did::Sent { from, length, .. } = step.did {
                let to = from + LINE_RATE * (length + trace.framing);
                ways.push((from, to, false));
                clock = to;
            }
            if step.clock > clock {
                ways.push((clock, step.clock, true));
                clock = step.clock;
            }
        }
        // A jump that is longer than every record would take the room of what is sent.
        let longest =
            ways.iter().filter(|(_, _, jump)| !jump).map(|(from, to, _)| to - from).max().unwrap_or(0);
        let far = |from: u64, to: u64, jump: bool| jump && to - from > longest;
        let breaks = ways.iter().filter(|(from, to, jump)| far(*from, *to, *jump)).count();
        let room = right - left - 2.0 * PAD;
        let breadth = if breaks == 0 { 0.0 } else { BREAK.min(0.2 * room / breaks as f64) };
        let plain: u64 = ways
            .iter()
            .filter(|(from, to, jump)| !far(*from, *to, *jump))
            .map(|(from, to, _)| to - from)
            .sum();
        let scale = if plain == 0 { 0.0 } else { (room - breadth * breaks as f64) / plain as f64 };
        let mut x = left + PAD;
        let mut parts = Vec::new();
        for (from, to, jump) in ways {
            let broken = far(from, to, jump);
            let width = if broken { breadth } else { (to - from) as f64 * scale };
            parts.push(Part { from, to, jump, broken, x, width });
            x += width;
        }
        Axis { parts, left, right }
    }

    /// Where the clock's value is drawn.
    pub fn x(&self, clock: u64) -> f64 {
        let after = self.parts.partition_point(|part| part.from <= clock);
        match after.checked_sub(1).map(|i| self.parts[i]) {
            None => self.left + PAD,
            Some(part) if part.to == part.from => part.x,
            Some(part) => {
                part.x + part.width * ((clock.min(part.to) - part.from) as f64 / (part.to - part.from) as f64)
            }
        }
    }

    /// Ticks: bytes of the line, and where they are drawn. A broken axis has no round numbers to go by, so it has ticks where there is room.
    pub fn ticks(&self) -> Vec<(u64, f64)> {
        let ticks =
            if self.parts.iter().any(|part| part.broken) { self.even_ticks() } else { self.round_ticks() };
        let mut kept: Vec<(u64, f64)> = Vec::new();
        for (tick, x) in ticks {
            let room = 9.0 + 6.5 * crate::text::thousands(tick).len() as f64;
            if kept.last().map_or(true, |(_, last)| x - last >= room) {
                kept.push((tick, x));
            }
        }
        kept
    }

    /// Where records begin or end, about a tenth of the axis apart.
    fn even_ticks(&self) -> Vec<(u64, f64)> {
        let apart = (self.right - self.left) / 10.0;
        let mut ticks = vec![(0, self.x(0))];
        let mut last = self.x(0);
        for part in self.parts.iter().filter(|part| !part.broken && part.width > 0.0) {
            for clock in [part.from, part.to] {
                let x = self.x(clock);
                if x >= last + apart {
                    ticks.push((clock / LINE_RATE, x));
                    last = x;
                }
            }
        }
        ticks
    }

    fn round_ticks(&self) -> Vec<(u64, f64)> {
        let end = self.parts.last().map_or(0, |part| part.to) / LINE_RATE;
        let aim = (end / 8).max(1);
        let power = 10u64.pow(aim.ilog10());
        let step =
            [1, 2, 5].map(|times| times * power).into_iter().find(|step| *step >= aim).unwrap_or(10 * power);
        (0..=end).step_by(step as usize).map(|tick| (tick, self.x(tick * LINE_RATE))).collect()
    }
}
