//! The stand-in's reader of setups and requests: it eats its input from the front.

use super::slips::Slip;

/// A number and a place.
pub type Refused = (u8, usize);

pub struct Reader<'a> {
    input: &'a [u8],
    at: usize,
    slip: Slip,
}

/// A lane as (number, weight, longest, shared).
type Lane = (usize, u64, u64, bool);

#[derive(Default)]
pub struct Plan {
    pub format: u64,
    pub framing: u64,
    pub lanes: Vec<Lane>,
}

impl<'a> Reader<'a> {
    pub fn new(input: &'a [u8], slip: Slip) -> Reader<'a> {
        Reader { input, at: 0, slip }
    }

    pub fn place(&self) -> usize {
        self.at
    }

    /// The byte at the place.
    pub fn next(&self) -> u8 {
        self.input[self.at]
    }

    pub fn left(&self) -> usize {
        self.input.len() - self.at
    }

    fn refuse<T>(&self, number: u8, place: usize) -> Result<T, Refused> {
        Err((number, place + usize::from(self.slip == Slip::PlaceOffByOne)))
    }

    /// A field's tag and value; `lengths` gives the right lengths of a tag, none for an unknown one.
    pub fn field(&mut self, lengths: fn(u8) -> &'static [usize]) -> Result<(u8, &'a [u8]), Refused> {
        let at = self.at;
        if self.left() < 3 {
            return self.refuse(1, at);
        }
        let tag = self.input[at];
        let mut length = usize::from(self.input[at + 1]) << 8 | usize::from(self.input[at + 2]);
        if self.slip == Slip::LowLengthByteOnly {
            length &= 0xFF;
        }
        if lengths(tag).is_empty() {
            return self.refuse(2, at);
        }
        let cut = self.left() - 3 < length;
        if cut && self.slip == Slip::CutBeforeLength {
            return self.refuse(1, at);
        }
        if !lengths(tag).contains(&length) {
            return self.refuse(3, at);
        }
        if cut {
            return self.refuse(1, at);
        }
        self.at += 3 + length;
        Ok((tag, &self.input[at + 3..self.at]))
    }

    pub fn setup(&mut self) -> Result<Plan, Refused> {
        let mut plan = Plan::default();
        let mut behind_format = false;
        // The lane whose 0x12 may stand here.
        let mut behind_lane = None;
        loop {
            let at = self.at;
            let (tag, value) = self.field(of_setup)?;
            if (tag == 0x01) == (at > 0) {
                return self.refuse(4, at);
            }
            match tag {
                0x01 => {
                    plan.format = match self.slip {
                        Slip::FormatLowByteOnly => u64::from(value[1]),
                        _ => number(value),
                    };
                    let most = if self.slip == Slip::SecondFormatRefused { 1 } else { 2 };
                    if !(1..=most).contains(&plan.format) {
                        return self.refuse_value(50, at, 3);
                    }
                }
                0x11 => {
                    let may_follow = match self.slip {
                        Slip::FramingAfterLanes => true,
                        Slip::FramingTwice => plan.lanes.is_empty(),
                        _ => behind_format,
                    };
                    let most = if self.slip == Slip::FramingOf65 { 65 } else { 64 };
                    let wrong = u64::from(value[0]) > most;
                    if wrong && self.slip == Slip::FramingValueBeforeOrder {
                        return self.refuse_value(54, at, 3);
                    }
                    if !may_follow {
                        return self.refuse(4, at);
                    }
                    if wrong {
                        return self.refuse_value(54, at, 3);
                    }
                    plan.framing = value[0].into();
                }
                0x10 => {
                    let lane = self.lane(plan.format, value);
                    match self.judge(lane, &plan.lanes) {
                        Some((4, _)) => return self.refuse(4, at),
                        Some((refusal, offset)) => return self.refuse_value(refusal, at, offset),
                        None => {}
                    }
                    plan.lanes.push(lane);
                }
                0x12 => {
                    let lane = usize::from(value[0]);
                    let last = plan.lanes.last().map(|lane| lane.0);
                    let named = match self.slip {
                        Slip::SharedOfAnyLane => behind_lane,
                        Slip::SharedTwice => last.filter(|last| *last == lane),
                        _ => behind_lane.filter(|last| *last == lane),
                    };
                    if named.is_none() {
                        return match self.slip {
                            Slip::SharedWrongAsLane if behind_lane.is_some() => self.refuse_value(51, at, 3),
                            _ => self.refuse(4, at),
                        };
                    }
                    plan.lanes.last_mut().expect("a lane was read").3 = self.slip != Slip::SharedForgotten;
                }
                _ if plan.lanes.is_empty() => return self.refuse(4, at),
                _ => return Ok(plan),
            }
            behind_format = tag == 0x01;
            behind_lane = plan.lanes.last().map(|lane| lane.0).filter(|_| tag == 0x10);
        }
    }

    fn lane(&self, format: u64, value: &[u8]) -> Lane {
        let unsaid = match (format, self.slip) {
            (_, Slip::WrongDefault) => 1_499,
            (2, Slip::DefaultsAlike) | (1, _) => 1_500,
            _ => 576,
        };
        let longest = if value.len() == 5 { number(&value[3..]) } else { unsaid };
        (usize::from(value[0]), number(&value[1..3]), longest, false)
    }

    /// The refusal that a lane gets after those before it, and how far behind the tag its byte stands.
    fn judge(&self, lane: Lane, before: &[Lane]) -> Option<(u8, usize)> {
        let (lane_number, weight, longest, _) = lane;
        let next = before.last().map_or(0, |last| last.0 + usize::from(self.slip != Slip::EqualLaneRises));
        let sum = before.iter().map(|lane| lane.1).sum::<u64>() + weight;
        let over = sum > 1_024 || (sum == 1_024 && self.slip == Slip::SumTooSmall);
        let bad_weight = weight == 0 || weight > 1_024;
        let bad_longest = !(64..=1_500).contains(&longest);
        let order = (lane_number < next, (4, 0));
        let number = (lane_number > 63, (51, 3));
        let heavy = (bad_weight, (52, 4 + low_only(self.slip, weight, 1_024)));
        let long = (bad_longest, (53, 6 + low_only(self.slip, longest, 1_500)));
        let weights = (over, (6, 4));
        let told = match self.slip {
            Slip::ValueBeforeOrder => [number, heavy, long, order, weights],
            Slip::WeightsBeforeValue => [order, weights, number, heavy, long],
            Slip::WeightsBeforeLongest => [order, number, heavy, weights, long],
            Slip::LongestFirst => [order, long, number, heavy, weights],
            Slip::WeightBeforeLane => [order, heavy, number, long, weights],
            _ => [order, number, heavy, long, weights],
        };
        told.iter().find(|(broken, _)| *broken).map(|(_, refusal)| *refusal)
    }

    /// A refusal of a number in a value, told at its first byte.
    fn refuse_value<T>(&self, number: u8, tag: usize, offset: usize) -> Result<T, Refused> {
        match self.slip {
            Slip::ValueToldAsFive if number > 6 => self.refuse(5, tag + offset),
            Slip::ValueAtTag if number > 6 => self.refuse(number, tag),
            Slip::WeightsAtTag if number == 6 => self.refuse(number, tag),
            _ => self.refuse(number, tag + offset),
        }
    }
}

/// The slip that points at the low byte where the high byte alone would be within the numbers.
fn low_only(slip: Slip, value: u64, most: u64) -> usize {
    usize::from(slip == Slip::ValueAtLowByte && value >> 8 <= most >> 8)
}

/// A number, high byte first.
pub fn number(bytes: &[u8]) -> u64 {
    bytes.iter().fold(0, |sum, byte| sum << 8 | u64::from(*byte))
}

fn of_setup(tag: u8) -> &'static [usize] {
    match tag {
        0x01 => &[2],
        0x10 => &[3, 5],
        0x11 | 0x12 => &[1],
        0x7F => &[0],
        _ => &[],
    }
}

pub fn of_requests(tag: u8) -> &'static [usize] {
    match tag {
        0x20 => &[7],
        0x26 => &[8],
        0x24 => &[1],
        0x21..=0x23 | 0x25 | 0x7F => &[0],
        _ => &[],
    }
}
