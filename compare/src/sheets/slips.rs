//! The two calls once more, built otherwise: the sheet is gone through byte by byte. It can make one mistake, and the comparison must find each.

use super::text::{fill, NO_SHEET};
use super::{Office, Refused};
use crate::plans::words::{plan, BUFFER_SHORT, OUTSIDE, SIZE};
use crate::setup::{LanePlan, Setup};

macro_rules! slips {
    ($($(#[$what:meta])* $name:ident),* $(,)?) => {
        #[derive(Clone, Copy, Debug, PartialEq, Eq)]
        pub enum Slip { None, $($(#[$what])* $name),* }
        pub const ALL: &[Slip] = &[$(Slip::$name),*];
    };
}

slips! {
    /// A number may begin with 0s.
    LeadingZeros,
    /// A number may have six digits.
    SixDigits,
    /// A lane number wraps at 8 bits.
    LaneWraps,
    /// A weight and a longest wrap at 16 bits.
    NumbersWrap,
    /// Any number of spaces stands between two numbers.
    ManySpaces,
    /// A line may end with a carriage return and a line feed.
    CarriageReturn,
    /// The last line feed may be left out.
    NoLastFeed,
    /// A line that is cut is dropped.
    CutDropped,
    /// An empty line is skipped.
    EmptyLine,
    /// An empty sheet is a plan with no lane.
    EmptyTaken,
    /// 81 is told at the line's first byte.
    CutAtLine,
    /// A refusal of a number is told at the line's first byte.
    NumberAtLine,
    /// A refusal of a number is told at its last digit.
    NumberAtEnd,
    /// 4 is told before 51, 52 and 53.
    OrderFirst,
    /// 6 is told before 53.
    WeightsBeforeLongest,
    /// 53 is told before 52.
    LongestFirst,
    /// 6 is told before 4.
    WeightsBeforeOrder,
    /// The form of the whole sheet is looked at before any number.
    FormFirst,
    /// An equal lane number rises.
    EqualRises,
    /// 1,024 in sum is too much.
    SumTooSmall,
    /// The plan is of format 1.
    FirstFormat,
    /// Only plans of format 2 are written.
    SecondFormatOnly,
    /// A refused sheet leaves the area empty.
    RefusalClears,
    /// Reading tells the sheet's length.
    TellsLength,
    /// A plan with framing bytes is written without them.
    FramingDropped,
    /// A plan with shared lanes is written as if they were not.
    SharedDropped,
    /// A lane is shared only if every lane is.
    SharedIfAll,
    /// 82 is told before 55.
    NoSheetFirst,
    /// 56 is told before 82.
    ShortFirst,
    /// A buffer of the exact size is too short.
    ExactIsShort,
    /// What fits is written before 56 is given.
    WritesThenShort,
    /// A 0 is written behind the sheet.
    WritesOn,
    /// The last line feed is not written.
    FeedLeftOut,
}

pub struct Slipped(pub Slip);

/// A number as far as it is read.
#[derive(Clone, Copy, Default)]
struct Reading {
    value: u64,
    digits: usize,
    from: usize,
}

impl Slipped {
    fn is(&self, slip: Slip) -> bool {
        self.0 == slip
    }

    fn format(&self) -> u16 {
        if self.is(Slip::FirstFormat) {
            1
        } else {
            2
        }
    }

    fn read(&self, sheet: &[u8]) -> Result<Setup, Refused> {
        let mut lanes: Vec<LanePlan> = vec![];
        let mut numbers: Vec<Reading> = vec![];
        let mut now = Reading::default();
        let mut line = 0;
        let mut at = 0;
        while at < sheet.len() {
            let byte = sheet[at];
            let last = numbers.len() == 2;
            match byte {
                b'0'..=b'9' => {
                    let zero = now.digits > 0 && now.value == 0 && !self.is(Slip::LeadingZeros);
                    let many = now.digits >= if self.is(Slip::SixDigits) { 6 } else { 5 };
                    if zero || many {
                        return Err(Refused::at(80, at as u64));
                    }
                    now.value = now.value * 10 + u64::from(byte - b'0');
                    now.digits += 1;
                }
                b' ' if self.is(Slip::ManySpaces) && now.digits == 0 && !numbers.is_empty() => {
                    now.from = at + 1
                }
                b' ' if now.digits > 0 && !last => {
                    numbers.push(now);
                    now = Reading { from: at + 1, ..Reading::default() };
                }
                b'\r' if self.is(Slip::CarriageReturn) && now.digits > 0 && last => {
                    if sheet.get(at + 1) != Some(&b'\n') {
                        return Err(Refused::at(80, at as u64));
                    }
                }
                b'\n' if now.digits > 0 && last => {
                    numbers.push(now);
                    if !self.is(Slip::FormFirst) {
                        lanes.push(self.judge(&numbers, line, &lanes)?);
                        numbers.clear();
                    } else {
                        numbers.clear();
                        lanes.push(LanePlan { number: 0, weight: 0, longest: 0, shared: false });
                    }
                    now = Reading { from: at + 1, ..Reading::default() };
                    line = at + 1;
                }
                b'\n' if self.is(Slip::EmptyLine) && at == line => {
                    now.from = at + 1;
                    line = at + 1;
                }
                _ => return Err(Refused::at(80, at as u64)),
            }
            at += 1;
        }
        if at > line {
            if self.is(Slip::NoLastFeed) && numbers.len() == 2 && now.digits > 0 {
                numbers.push(now);
                lanes.push(self.judge(&numbers, line, &lanes)?);
                return Ok(Setup { format: self.format(), framing: 0, lanes });
            }
            if !self.is(Slip::CutDropped) || lanes.is_empty() {
                return Err(Refused::at(81, if self.is(Slip::CutAtLine) { line } else { at } as u64));
            }
        }
        if lanes.is_empty() && !self.is(Slip::EmptyTaken) {
            return Err(Refused::at(81, at as u64));
        }
        if self.is(Slip::FormFirst) {
            return Slipped(Slip::None).read(sheet);
        }
        Ok(Setup { format: self.format(), framing: 0, lanes })
    }

    fn judge(&self, numbers: &[Reading], line: usize, before: &[LanePlan]) -> Result<LanePlan, Refused> {
        let wrapped = |number: Reading, slip, bits| match self.is(slip) {
            true => number.value % (1_u64 << bits),
            false => number.value,
        };
        let lane = wrapped(numbers[0], Slip::LaneWraps, 8);
        let weight = wrapped(numbers[1], Slip::NumbersWrap, 16);
        let longest = wrapped(numbers[2], Slip::NumbersWrap, 16);
        let next =
            before.last().map_or(0, |last| u64::from(last.number) + u64::from(!self.is(Slip::EqualRises)));
        let sum: u64 = before.iter().map(|lane| u64::from(lane.weight)).sum::<u64>() + weight;
        let number = (lane > 63, 51, 0);
        let heavy = (weight == 0 || weight > 1_024, 52, 1);
        let long = (!(64..=1_500).contains(&longest), 53, 2);
        let order = (lane < next, 4, 0);
        let over = (sum > 1_024 || self.is(Slip::SumTooSmall) && sum == 1_024, 6, 1);
        let told = match self.0 {
            Slip::OrderFirst => [order, number, heavy, long, over],
            Slip::WeightsBeforeLongest => [number, heavy, over, long, order],
            Slip::LongestFirst => [number, long, heavy, order, over],
            Slip::WeightsBeforeOrder => [number, heavy, long, over, order],
            _ => [number, heavy, long, order, over],
        };
        if let Some((_, refusal, which)) = told.into_iter().find(|(wrong, ..)| *wrong) {
            let Reading { from, digits, .. } = numbers[which];
            let place = match self.0 {
                Slip::NumberAtLine => line,
                Slip::NumberAtEnd => from + digits - 1,
                _ => from,
            };
            return Err(Refused::at(refusal, place as u64));
        }
        Ok(LanePlan { number: lane as u8, weight: weight as u16, longest: longest as u16, shared: false })
    }
}

impl Office for Slipped {
    fn read(&mut self, sheet: &[u8], area: &mut [u8]) -> Result<u64, Refused> {
        if area.len() < SIZE {
            return Err(Refused::at(7, 0));
        }
        let read = Slipped::read(self, sheet);
        if read.is_err() && self.is(Slip::RefusalClears) {
            area.fill(0);
        }
        let plan = read?;
        fill(&plan, area);
        Ok(if self.is(Slip::TellsLength) { sheet.len() } else { plan.lanes.len() } as u64)
    }

    fn write(&mut self, area: &[u8], sheet: &mut [u8]) -> Result<u64, Refused> {
        let framed = area.len() >= SIZE && area[2..8] != [0; 6];
        if framed && self.is(Slip::NoSheetFirst) {
            return Err(Refused::by(NO_SHEET));
        }
        let plan = plan(area).ok_or(Refused::by(OUTSIDE))?;
        if self.is(Slip::SecondFormatOnly) && plan.format != 2 {
            return Err(Refused::by(OUTSIDE));
        }
        let mut text = String::new();
        for LanePlan { number, weight, longest, .. } in &plan.lanes {
            text += &format!("{number} {weight} {longest}\n");
        }
        if self.is(Slip::FeedLeftOut) {
            text.pop();
        }
        let short = sheet.len() < text.len() || self.is(Slip::ExactIsShort) && sheet.len() == text.len();
        if short && self.is(Slip::ShortFirst) {
            return Err(Refused::by(BUFFER_SHORT));
        }
        if plan.framing != 0 && !self.is(Slip::FramingDropped) {
            return Err(Refused::by(NO_SHEET));
        }
        let shared = plan.lanes.iter().filter(|lane| lane.shared).count();
        let few = if self.is(Slip::SharedIfAll) { plan.lanes.len() } else { 1 };
        if shared >= few && !self.is(Slip::SharedDropped) {
            return Err(Refused::by(NO_SHEET));
        }
        if short {
            if self.is(Slip::WritesThenShort) {
                let fits = sheet.len().min(text.len());
                sheet[..fits].copy_from_slice(&text.as_bytes()[..fits]);
            }
            return Err(Refused::by(BUFFER_SHORT));
        }
        sheet[..text.len()].copy_from_slice(text.as_bytes());
        if self.is(Slip::WritesOn) && sheet.len() > text.len() {
            sheet[text.len()] = 0;
        }
        Ok(text.len() as u64)
    }
}
