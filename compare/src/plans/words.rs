//! A plan in the words of an area, and in the bytes of a setup.

use super::{Depot, Refused};
use crate::numbers::*;
use crate::setup::{whole, LanePlan, Setup, END, FORMAT, FRAMED, LANE, SHARED};

/// 65 words.
pub const SIZE: usize = 520;

const TABLE_SHORT: u64 = 7;
pub const OUTSIDE: u64 = 55;
pub const BUFFER_SHORT: u64 = 56;

pub fn words(area: &[u8]) -> Vec<u64> {
    area.chunks_exact(8).map(|word| u64::from_le_bytes(word.try_into().expect("eight bytes"))).collect()
}

/// The words of a plan.
pub fn lay(setup: &Setup, area: &mut [u8]) {
    let mut all = [0_u64; SIZE / 8];
    all[0] = u64::from(setup.format) + (u64::from(setup.framing) << 16);
    for lane in &setup.lanes {
        all[usize::from(lane.number) + 1] =
            u64::from(lane.weight) + (u64::from(lane.longest) << 16) + (u64::from(lane.shared) << 32);
    }
    for (bytes, word) in area.chunks_exact_mut(8).zip(all) {
        bytes.copy_from_slice(&word.to_le_bytes());
    }
}

/// The plan of an area; nothing where it is none within the numbers.
pub fn plan(area: &[u8]) -> Option<Setup> {
    let all = words(area.get(..SIZE)?);
    let format = Some(all[0] as u16).filter(|format| FORMATS.contains(format))?;
    let framing = u8::try_from(all[0] >> 16).ok().filter(|framing| FRAMING.contains(framing))?;
    let mut lanes = vec![];
    for (number, word) in (0..LANES).zip(&all[1..]) {
        if *word == 0 {
            continue;
        }
        let weight = *word as u16;
        let longest = Some((word >> 16) as u16).filter(|longest| LONGEST.contains(longest))?;
        let shared = match word >> 32 {
            0 => false,
            1 => true,
            _ => return None,
        };
        if !WEIGHT.contains(&weight) {
            return None;
        }
        lanes.push(LanePlan { number, weight, longest, shared });
    }
    let sum: u32 = lanes.iter().map(|lane| u32::from(lane.weight)).sum();
    (!lanes.is_empty() && sum <= WEIGHT_SUM).then_some(Setup { format, framing, lanes })
}

/// R9.2: every lane field with its longest, 0x11 unless h is 0, and 0x12 behind the field of a shared lane.
pub fn bytes(setup: &Setup) -> Vec<u8> {
    let mut bytes = vec![FORMAT, 0, 2];
    bytes.extend(setup.format.to_be_bytes());
    if setup.framing != 0 {
        bytes.extend([FRAMED, 0, 1, setup.framing]);
    }
    for lane in &setup.lanes {
        bytes.extend([LANE, 0, 5, lane.number]);
        bytes.extend(lane.weight.to_be_bytes());
        bytes.extend(lane.longest.to_be_bytes());
        if lane.shared {
            bytes.extend([SHARED, 0, 1, lane.number]);
        }
    }
    bytes.extend([END, 0, 0]);
    bytes
}

/// Whether a setup that is read is in that form, field by field.
pub fn in_form(setup: &[u8]) -> bool {
    let mut at = 0;
    while at < setup.len() {
        let length = usize::from(u16::from_be_bytes([setup[at + 1], setup[at + 2]]));
        if setup[at] == LANE && length != 5 || setup[at] == FRAMED && setup[at + 3] == 0 {
            return false;
        }
        at += 3 + length;
    }
    true
}

pub struct Reference;

impl Depot for Reference {
    fn read(&mut self, setup: &[u8], area: &mut [u8]) -> Result<u64, Refused> {
        if area.len() < SIZE {
            return Err(Refused::at(TABLE_SHORT, 0));
        }
        let plan = whole(setup).map_err(|fault| Refused::at(u64::from(fault.number), fault.place))?;
        lay(&plan, &mut area[..SIZE]);
        Ok(plan.lanes.len() as u64)
    }

    fn write(&mut self, area: &[u8], setup: &mut [u8]) -> Result<u64, Refused> {
        let bytes = bytes(&plan(area).ok_or(Refused::by(OUTSIDE))?);
        setup.get_mut(..bytes.len()).ok_or(Refused::by(BUFFER_SHORT))?.copy_from_slice(&bytes);
        Ok(bytes.len() as u64)
    }
}
