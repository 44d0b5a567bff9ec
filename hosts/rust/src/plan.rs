//! Plans: setups and text sheets read, edited and written.

use crate::boundary::plans as calls;
use crate::{answer, Refusal};

/// The size of a plan area in bytes: 65 words, low byte first.
pub const PLAN_SIZE: usize = 520;

/// The most bytes that a setup has when it is written.
pub const SETUP_MOST: usize = 780;

/// The most bytes that a text sheet has when it is written.
pub const SHEET_MOST: usize = 698;

/// The plan area's size as the library has it; [`PLAN_SIZE`].
pub fn plan_size() -> u64 {
    calls::size()
}

/// What a plan gives a lane.
#[derive(Clone, Copy, Debug, PartialEq, Eq)]
pub struct PlanLane {
    /// 1 to 1,024; all lanes' together at most 1,024.
    pub weight: u16,
    /// The longest record in bytes, 64 to 1,500.
    pub longest: u16,
    /// Up to 8 trains share the lane, each with a queue of its own.
    pub shared: bool,
}

impl PlanLane {
    /// A lane that is not shared.
    pub const fn new(weight: u16, longest: u16) -> PlanLane {
        PlanLane { weight, longest, shared: false }
    }

    /// A lane that trains share.
    pub const fn shared(weight: u16, longest: u16) -> PlanLane {
        PlanLane { weight, longest, shared: true }
    }

    fn in_word(word: u64) -> PlanLane {
        PlanLane { weight: word as u16, longest: (word >> 16) as u16, shared: word >> 32 != 0 }
    }

    /// A lane that is there with weight 0 is outside the numbers, and all zero would be no lane.
    fn word(&self) -> u64 {
        let longest = if self.weight == 0 { self.longest.max(1) } else { self.longest };
        u64::from(self.weight) | u64::from(longest) << 16 | u64::from(self.shared) << 32
    }
}

/// A plan of lanes, to be edited. Any numbers may stand in it; writing it tests them.
#[derive(Clone, Debug, PartialEq, Eq)]
pub struct Plan {
    /// The setup's format, 1 or 2: what a longest that is left out means, 1,500 bytes or 576. It is written as it stands here.
    pub format: u16,
    /// The framing bytes that each record is charged beside its length, 0 to 64.
    pub framing: u8,
    /// The lanes by number; nothing where there is no such lane.
    pub lanes: [Option<PlanLane>; 64],
}

impl Plan {
    /// The format of a new plan.
    pub const FORMAT: u16 = 2;

    /// A plan of format 2 with no lane and no framing bytes.
    pub fn new() -> Plan {
        Plan { format: Plan::FORMAT, framing: 0, lanes: [None; 64] }
    }

    /// The plan of a setup. A refusal has its place in the setup's bytes.
    pub fn from_setup(setup: &[u8]) -> Result<Plan, Refusal> {
        let mut area = [0; PLAN_SIZE];
        answer(calls::read(setup, &mut area))?;
        Ok(Plan::in_area(&area))
    }

    /// The plan of a text sheet, of format 2: lines of lane, weight and longest. A refusal has its place in the sheet's bytes.
    pub fn from_sheet(sheet: &[u8]) -> Result<Plan, Refusal> {
        let mut area = [0; PLAN_SIZE];
        answer(calls::read_sheet(sheet, &mut area))?;
        Ok(Plan::in_area(&area))
    }

    /// The plan of an area that was read.
    fn in_area(area: &[u8; PLAN_SIZE]) -> Plan {
        let mut words = area.chunks_exact(8).map(|word| u64::from_le_bytes(std::array::from_fn(|i| word[i])));
        // A plan that was read is within the numbers, so that each number below fits.
        let head = words.next().expect("65 words");
        let mut plan = Plan { format: head as u16, framing: (head >> 16) as u8, lanes: [None; 64] };
        for (lane, word) in plan.lanes.iter_mut().zip(words) {
            *lane = (word != 0).then_some(PlanLane::in_word(word));
        }
        plan
    }

    /// The plan's words.
    fn area(&self) -> [u8; PLAN_SIZE] {
        let mut area = [0; PLAN_SIZE];
        let head = u64::from(self.format) | u64::from(self.framing) << 16;
        let lanes = self.lanes.iter().map(|lane| lane.map_or(0, |lane| lane.word()));
        for (bytes, word) in area.chunks_exact_mut(8).zip(std::iter::once(head).chain(lanes)) {
            bytes.copy_from_slice(&word.to_le_bytes());
        }
        area
    }

    /// Writes the plan as a setup into the lent bytes; its size. Refused with 55 outside the numbers, with 56 where the bytes are too few; they stay then.
    pub fn write_setup(&self, setup: &mut [u8]) -> Result<usize, Refusal> {
        answer(calls::write(&self.area(), setup)).map(|words| words[0] as usize)
    }

    /// The plan as a setup; refused with 55 outside the numbers.
    pub fn to_setup(&self) -> Result<Vec<u8>, Refusal> {
        let mut setup = vec![0; SETUP_MOST];
        let size = self.write_setup(&mut setup)?;
        setup.truncate(size);
        Ok(setup)
    }

    /// Writes the plan as a text sheet into the lent bytes; its size. Refused with 55 outside the numbers, with 82 where it has framing bytes or a shared
    /// lane, with 56 where the bytes are too few; they stay then.
    pub fn write_sheet(&self, sheet: &mut [u8]) -> Result<usize, Refusal> {
        answer(calls::write_sheet(&self.area(), sheet)).map(|words| words[0] as usize)
    }

    /// The plan as a text sheet; refused with 55 outside the numbers, with 82 where it has framing bytes or a shared lane.
    pub fn to_sheet(&self) -> Result<String, Refusal> {
        let mut sheet = vec![0; SHEET_MOST];
        let size = self.write_sheet(&mut sheet)?;
        sheet.truncate(size);
        Ok(sheet.into_iter().map(char::from).collect())
    }
}

impl Default for Plan {
    fn default() -> Plan {
        Plan::new()
    }
}
