//! A sheet: lines of three decimal numbers, read one after another, each first by its form and then by its numbers.

use super::{Office, Refused};
use crate::fields::Fault;
use crate::numbers::{refusal, LANES, LONGEST, WEIGHT, WEIGHT_SUM};
use crate::plans::words::{lay, plan, BUFFER_SHORT, OUTSIDE, SIZE};
use crate::setup::{LanePlan, Setup};

/// 82: a plan that a sheet cannot say.
pub const NO_SHEET: u64 = 82;

/// A number of a line: its value, and the place of its first digit.
#[derive(Clone, Copy)]
struct Figure {
    value: u32,
    place: usize,
}

/// The digits of a number.
const MOST_DIGITS: usize = 5;

/// The format of a plan that comes from a sheet.
pub const FORMAT: u16 = 2;

/// The plan of a sheet: format 2, no framing, no shared lane, and its lanes by rising number.
pub fn read(sheet: &[u8]) -> Result<Setup, Fault> {
    let mut lanes: Vec<LanePlan> = Vec::new();
    let mut place = 0;
    while place < sheet.len() || lanes.is_empty() {
        let lane = figure(sheet, place, b' ')?;
        let weight = figure(sheet, behind(sheet, lane), b' ')?;
        let longest = figure(sheet, behind(sheet, weight), b'\n')?;
        place = behind(sheet, longest);
        lanes.push(judge([lane, weight, longest], &lanes)?);
    }
    Ok(Setup { format: FORMAT, framing: 0, lanes })
}

/// The number at a place and the byte that ends it; else 80 at the first byte that can't stand there, or 81 at the end.
fn figure(sheet: &[u8], place: usize, stop: u8) -> Result<Figure, Fault> {
    let rest = &sheet[place..];
    let digits = rest.iter().take_while(|byte| byte.is_ascii_digit()).count();
    let most = if rest.first() == Some(&b'0') { 1 } else { MOST_DIGITS };
    let wrong = |past| {
        let number = if place + past == sheet.len() { refusal::SHEET_CUT } else { refusal::SHEET_BYTE };
        Err(Fault::at(number, place + past))
    };
    if digits == 0 {
        return wrong(0);
    }
    if digits > most {
        return wrong(most);
    }
    if rest.get(digits) != Some(&stop) {
        return wrong(digits);
    }
    let value = rest[..digits].iter().fold(0, |value, digit| 10 * value + u32::from(digit - b'0'));
    Ok(Figure { value, place })
}

/// The place behind a number that was read, and the byte that ended it.
fn behind(sheet: &[u8], figure: Figure) -> usize {
    let digits = sheet[figure.place..].iter().take_while(|byte| byte.is_ascii_digit()).count();
    figure.place + digits + 1
}

/// A line after `before`: 51, 52, 53, 4, 6, each at its number.
fn judge([lane, weight, longest]: [Figure; 3], before: &[LanePlan]) -> Result<LanePlan, Fault> {
    let sum: u32 = before.iter().map(|lane| u32::from(lane.weight)).sum();
    let within = |range: std::ops::RangeInclusive<u16>, value: u32| {
        u16::try_from(value).is_ok_and(|value| range.contains(&value))
    };
    let faults = [
        (lane.value >= u32::from(LANES), refusal::LANE, lane),
        (!within(WEIGHT, weight.value), refusal::WEIGHT, weight),
        (!within(LONGEST, longest.value), refusal::LONGEST, longest),
        (before.last().is_some_and(|last| lane.value <= u32::from(last.number)), refusal::ORDER, lane),
        (sum + weight.value > WEIGHT_SUM, refusal::WEIGHTS, weight),
    ];
    match faults.into_iter().find(|(wrong, ..)| *wrong) {
        Some((_, number, figure)) => Err(Fault::at(number, figure.place)),
        None => Ok(LanePlan {
            number: lane.value as u8,
            weight: weight.value as u16,
            longest: longest.value as u16,
            shared: false,
        }),
    }
}

/// The sheet of a plan of either format that has no framing bytes and no shared lane.
pub fn write(plan: &Setup) -> Option<Vec<u8>> {
    let line = |lane: &LanePlan| format!("{} {} {}\n", lane.number, lane.weight, lane.longest);
    let bare = plan.framing == 0 && !plan.lanes.iter().any(|lane| lane.shared);
    bare.then(|| plan.lanes.iter().map(line).collect::<String>().into_bytes())
}

/// The words of the plan of a sheet.
pub fn fill(sheet: &Setup, area: &mut [u8]) {
    lay(sheet, &mut area[..SIZE]);
}

pub struct Reference;

impl Office for Reference {
    fn read(&mut self, sheet: &[u8], area: &mut [u8]) -> Result<u64, Refused> {
        if area.len() < SIZE {
            return Err(Refused::at(u64::from(refusal::TABLE_SHORT), 0));
        }
        let plan = read(sheet).map_err(|fault| Refused::at(u64::from(fault.number), fault.place))?;
        fill(&plan, area);
        Ok(plan.lanes.len() as u64)
    }

    fn write(&mut self, area: &[u8], sheet: &mut [u8]) -> Result<u64, Refused> {
        let plan = plan(area).ok_or(Refused::by(OUTSIDE))?;
        let text = write(&plan).ok_or(Refused::by(NO_SHEET))?;
        sheet.get_mut(..text.len()).ok_or(Refused::by(BUFFER_SHORT))?.copy_from_slice(&text);
        Ok(text.len() as u64)
    }
}
