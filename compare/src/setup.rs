//! Setups (R8): 0x01 with the format, perhaps 0x11 with the framing bytes, a 0x10 for each lane, by rising number, perhaps with a 0x12 behind it that makes the
//! lane shared, and 0x7F.

use crate::fields::{field, Fault, Field, Part};
use crate::numbers::{refusal, *};

pub const FORMAT: u8 = 0x01;
pub const LANE: u8 = 0x10;
pub const FRAMED: u8 = 0x11;
pub const SHARED: u8 = 0x12;
pub const END: u8 = 0x7F;

const FIELDS: &Part = &[(FORMAT, &[2]), (FRAMED, &[1]), (LANE, &[3, 5]), (SHARED, &[1]), (END, &[0])];

#[derive(Clone, Copy, Debug, PartialEq, Eq)]
pub struct LanePlan {
    pub number: u8,
    pub weight: u16,
    pub longest: u16,
    /// Trains share it, each with a queue of its own.
    pub shared: bool,
}

/// What a setup says, lanes by rising number.
#[derive(Clone, Debug, PartialEq, Eq)]
pub struct Setup {
    /// It says what a longest that is left out means, and no table has it.
    pub format: u16,
    /// h: the framing bytes that each record is charged beside its length.
    pub framing: u8,
    pub lanes: Vec<LanePlan>,
}

/// Making a table: the whole input is the setup, and a byte after its 0x7F is refused by 4 at that byte.
pub fn whole(input: &[u8]) -> Result<Setup, Fault> {
    let (setup, end) = read(input)?;
    if end < input.len() {
        return Err(Fault::at(refusal::ORDER, end));
    }
    Ok(setup)
}

/// The setup at the input's start, and where it ends: bytes may stand behind it, as in a session (R8.14).
pub fn read(input: &[u8]) -> Result<(Setup, usize), Fault> {
    let mut format = 0;
    let mut framing = 0;
    let mut lanes: Vec<LanePlan> = Vec::new();
    let mut place = 0;
    let mut before = None;
    loop {
        let field = field(input, place, FIELDS)?;
        let in_place = match field.tag {
            FORMAT => before.is_none(),
            FRAMED => before == Some(FORMAT),
            SHARED => before == Some(LANE) && lanes.last().is_some_and(|lane| lane.number == field.value[0]),
            _ => before.is_some(),
        };
        if !in_place {
            return Err(field.fault(refusal::ORDER));
        }
        match field.tag {
            FORMAT => {
                format = u16::from_be_bytes([field.value[0], field.value[1]]);
                if !FORMATS.contains(&format) {
                    return Err(field.fault_in_value(refusal::FORMAT, 0));
                }
            }
            FRAMED if !FRAMING.contains(&field.value[0]) => {
                return Err(field.fault_in_value(refusal::FRAMING, 0));
            }
            FRAMED => framing = field.value[0],
            LANE => lanes.push(lane(format, &field, &lanes)?),
            SHARED => lanes.iter_mut().rev().take(1).for_each(|lane| lane.shared = true),
            _ if lanes.is_empty() => return Err(field.fault(refusal::ORDER)),
            _ => return Ok((Setup { format, framing, lanes }, field.next)),
        }
        place = field.next;
        before = Some(field.tag);
    }
}

/// One lane field of a setup of this format, after `before`: 4 at the tag, then each number at its own first byte, then 6 at the weight.
fn lane(format: u16, field: &Field, before: &[LanePlan]) -> Result<LanePlan, Fault> {
    let number = field.value[0];
    let weight = u16::from_be_bytes([field.value[1], field.value[2]]);
    let longest = match field.value[3..] {
        [high, low] => u16::from_be_bytes([high, low]),
        _ => longest_unsaid(format),
    };
    if before.last().is_some_and(|last| number <= last.number) {
        return Err(field.fault(refusal::ORDER));
    }
    let numbers = [
        (number < LANES, refusal::LANE, 0),
        (WEIGHT.contains(&weight), refusal::WEIGHT, 1),
        (LONGEST.contains(&longest), refusal::LONGEST, 3),
    ];
    if let Some((_, refused, byte)) = numbers.into_iter().find(|(within, ..)| !within) {
        return Err(field.fault_in_value(refused, byte));
    }
    let so_far: u32 = before.iter().map(|lane| u32::from(lane.weight)).sum();
    if so_far + u32::from(weight) > WEIGHT_SUM {
        return Err(field.fault_in_value(refusal::WEIGHTS, 1));
    }
    Ok(LanePlan { number, weight, longest, shared: false })
}
