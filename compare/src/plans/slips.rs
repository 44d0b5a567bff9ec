//! The reference's calls with one mistake each. The comparison must find every one.

use super::words::{bytes, lay, plan, words, Reference, BUFFER_SHORT, OUTSIDE, SIZE};
use super::{Depot, Refused};
use crate::numbers::longest_unsaid;
use crate::setup::{Setup, END, FRAMED, LANE, SHARED};

#[derive(Clone, Copy, Debug, PartialEq, Eq)]
pub enum Slip {
    None,
    /// A lane field is short where the longest is the one that a short field means.
    ShortFields,
    /// 0x11 is written for 0, too.
    FramingAlways,
    /// What fits is written before 56 is given.
    WritesThenShort,
    /// 56 before 55.
    ShortFirst,
    /// A buffer of the exact size is too short.
    ExactIsShort,
    /// Bits above a longest are dropped.
    StrayBits,
    /// A lane of weight 0 is no lane, whatever its longest.
    AbsentWithLongest,
    /// Weights may sum to 1,025.
    SumOver,
    /// 65 framing bytes are taken.
    FramingOver,
    /// A plan with no lane is written.
    NoLane,
    /// Any format is written, as format 1.
    AnyFormat,
    /// Every plan is written as format 1.
    AlwaysFirstFormat,
    /// An area that is a byte short is read from, as if it had a 0 there.
    AreaShort,
    /// Low byte first.
    LowFirst,
    /// A byte is written past the size.
    WritesOn,
    /// A refused setup leaves the area empty.
    RefusalClears,
    /// Reading leaves the words of lanes that are not in the setup.
    AbsentStays,
    /// Reading tells the setup's length.
    TellsLength,
    /// The setup is looked at before the area's length.
    SetupBeforeArea,
    /// 0x12 is not written.
    SharedLost,
    /// Every 0x12 is written behind the last lane.
    SharedLast,
    /// A shared lane that is not there is no lane.
    SharedAbsent,
    /// Reading leaves a shared lane's mark out.
    SharedNotStored,
    /// 0x12 twice is taken.
    SharedTwice,
    /// 0x12 of any lane is taken for that of the lane before.
    SharedOfAny,
    /// 0x12 before its lane's 0x10 is taken.
    SharedBefore,
}

pub const ALL: &[Slip] = &[
    Slip::ShortFields,
    Slip::FramingAlways,
    Slip::WritesThenShort,
    Slip::ShortFirst,
    Slip::ExactIsShort,
    Slip::StrayBits,
    Slip::AbsentWithLongest,
    Slip::SumOver,
    Slip::FramingOver,
    Slip::NoLane,
    Slip::AnyFormat,
    Slip::AlwaysFirstFormat,
    Slip::AreaShort,
    Slip::LowFirst,
    Slip::WritesOn,
    Slip::RefusalClears,
    Slip::AbsentStays,
    Slip::TellsLength,
    Slip::SetupBeforeArea,
    Slip::SharedLost,
    Slip::SharedLast,
    Slip::SharedAbsent,
    Slip::SharedNotStored,
    Slip::SharedTwice,
    Slip::SharedOfAny,
    Slip::SharedBefore,
];

pub struct Slipped(pub Slip);

/// A changed copy of an area's words.
fn with(area: &[u8], change: impl FnOnce(&mut Vec<u64>)) -> Vec<u8> {
    let mut all = words(&area[..SIZE.min(area.len())]);
    change(&mut all);
    all.into_iter().flat_map(u64::to_le_bytes).collect()
}

impl Slipped {
    fn plan(&self, area: &[u8]) -> Option<Setup> {
        let right = plan(area);
        if right.is_some() {
            return right;
        }
        if self.0 == Slip::AreaShort && area.len() == SIZE - 1 {
            return plan(&[area, &[0]].concat());
        }
        if area.len() < SIZE {
            return None;
        }
        match self.0 {
            Slip::StrayBits => {
                plan(&with(area, |all| all[1..].iter_mut().for_each(|word| *word &= 0x1_FFFF_FFFF)))
            }
            Slip::AbsentWithLongest => plan(&with(area, |all| {
                all[1..].iter_mut().filter(|word| **word & 0xFFFF == 0).for_each(|word| *word = 0)
            })),
            Slip::SharedAbsent => plan(&with(area, |all| {
                all[1..].iter_mut().filter(|word| **word == 1 << 32).for_each(|word| *word = 0)
            })),
            Slip::SumOver => {
                let at = words(&area[..SIZE])[1..].iter().position(|word| word & 0xFFFF > 1)? + 1;
                let mut setup = plan(&with(area, |all| all[at] -= 1))?;
                let lane = setup.lanes.iter_mut().find(|lane| usize::from(lane.number) + 1 == at)?;
                lane.weight += 1;
                Some(setup)
            }
            Slip::FramingOver => {
                let mut setup = plan(&with(area, |all| {
                    if all[0] >> 16 == 65 {
                        all[0] -= 1 << 16;
                    }
                }))?;
                setup.framing += 1;
                Some(setup)
            }
            Slip::NoLane if words(&area[..SIZE])[1..].iter().all(|word| *word == 0) => {
                let mut setup = plan(&with(area, |all| all[1] = 1 + (64 << 16)))?;
                setup.lanes.clear();
                Some(setup)
            }
            Slip::AnyFormat => plan(&with(area, |all| all[0] = all[0] & !0xFFFF | 1)),
            _ => None,
        }
    }

    fn bytes(&self, setup: &Setup) -> Vec<u8> {
        let format = if self.0 == Slip::AlwaysFirstFormat { 1 } else { setup.format };
        let mut out = vec![0x01, 0, 2];
        out.extend(format.to_be_bytes());
        if setup.framing != 0 || self.0 == Slip::FramingAlways {
            out.extend([FRAMED, 0, 1, setup.framing]);
        }
        for lane in &setup.lanes {
            let short = self.0 == Slip::ShortFields && lane.longest == longest_unsaid(setup.format);
            out.extend([LANE, 0, if short { 3 } else { 5 }, lane.number]);
            out.extend(lane.weight.to_be_bytes());
            match self.0 {
                _ if short => {}
                Slip::LowFirst => out.extend(lane.longest.to_le_bytes()),
                _ => out.extend(lane.longest.to_be_bytes()),
            }
            if lane.shared && ![Slip::SharedLost, Slip::SharedLast].contains(&self.0) {
                out.extend([SHARED, 0, 1, lane.number]);
            }
        }
        if self.0 == Slip::SharedLast {
            let shared = setup.lanes.iter().filter(|lane| lane.shared);
            shared.for_each(|lane| out.extend([SHARED, 0, 1, lane.number]));
        }
        out.extend([END, 0, 0]);
        out
    }
}

impl Slipped {
    /// The setup that a refused one is taken for, where a slip is of the place of 0x12.
    fn taken_as(&self, setup: &[u8]) -> Option<Vec<u8>> {
        let mut fields = fields(setup)?;
        let shared: Vec<usize> = (1..fields.len()).filter(|at| fields[*at][0] == SHARED).collect();
        for at in shared.into_iter().rev() {
            let before = fields[at - 1].clone();
            match self.0 {
                Slip::SharedTwice if before == fields[at] => drop(fields.remove(at)),
                Slip::SharedOfAny if before[0] == LANE => fields[at][3] = before[3],
                Slip::SharedBefore if at + 1 < fields.len() => fields.swap(at, at + 1),
                _ => {}
            }
        }
        Some(fields.concat())
    }
}

/// The fields of a setup, if they are whole and the fields of a shared lane have a byte.
fn fields(setup: &[u8]) -> Option<Vec<Vec<u8>>> {
    let mut fields = vec![];
    let mut left = setup;
    while let [tag, high, low, ..] = *left {
        let length = 3 + usize::from(u16::from_be_bytes([high, low]));
        let field = left.get(..length).filter(|field| tag != SHARED && tag != LANE || field.len() > 3)?;
        fields.push(field.to_vec());
        left = &left[length..];
    }
    left.is_empty().then_some(fields)
}

impl Depot for Slipped {
    fn read(&mut self, setup: &[u8], area: &mut [u8]) -> Result<u64, Refused> {
        let before = area.to_vec();
        if self.0 == Slip::SetupBeforeArea && area.len() < SIZE {
            let mut whole = vec![0; SIZE];
            Reference.read(setup, &mut whole)?;
        }
        let mut answer = Reference.read(setup, area);
        if answer.is_err() {
            if let Some(other) = self.taken_as(setup) {
                answer = Reference.read(&other, area).or(answer);
            }
        }
        match (self.0, &answer) {
            (Slip::SharedNotStored, Ok(_)) => {
                (8..SIZE).step_by(8).for_each(|at| area[at + 4] = 0);
            }
            (Slip::RefusalClears, Err(_)) => area.fill(0),
            (Slip::AbsentStays, Ok(_)) => {
                for at in (8..SIZE).step_by(8) {
                    if area[at..at + 8] == [0; 8] {
                        area[at..at + 8].copy_from_slice(&before[at..at + 8]);
                    }
                }
            }
            (Slip::TellsLength, Ok(_)) => return Ok(setup.len() as u64),
            _ => {}
        }
        answer
    }

    fn write(&mut self, area: &[u8], setup: &mut [u8]) -> Result<u64, Refused> {
        if self.0 == Slip::ShortFirst && setup.len() < 16 {
            return Err(Refused::by(BUFFER_SHORT));
        }
        let bytes = self.bytes(&self.plan(area).ok_or(Refused::by(OUTSIDE))?);
        let size = bytes.len();
        if setup.len() < size || self.0 == Slip::ExactIsShort && setup.len() == size {
            if self.0 == Slip::WritesThenShort {
                let fits = setup.len();
                setup.copy_from_slice(&bytes[..fits]);
            }
            return Err(Refused::by(BUFFER_SHORT));
        }
        setup[..size].copy_from_slice(&bytes);
        if self.0 == Slip::WritesOn && setup.len() > size {
            setup[size] ^= 1;
        }
        Ok(size as u64)
    }
}

/// A plan of one lane, for the boundary's test of short answer buffers.
pub fn sample() -> (Vec<u8>, Vec<u8>) {
    let setup = Setup {
        format: 2,
        framing: 0,
        lanes: vec![crate::setup::LanePlan { number: 3, weight: 7, longest: 64, shared: false }],
    };
    let mut area = vec![0; SIZE];
    lay(&setup, &mut area);
    (area, bytes(&setup))
}
