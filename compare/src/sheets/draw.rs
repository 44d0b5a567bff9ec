//! Random sheets: of a drawn plan, with numbers at their edges, with lines and bytes that are off.

use super::text::write;
use crate::gen::setups;
use crate::rng::Rng;
use crate::setup::Setup;

/// Numbers at both sides of an edge, and such as would be right if they wrapped at 8 or 16 bits.
const LANES: &[u32] =
    &[0, 1, 9, 10, 62, 63, 64, 65, 99, 100, 255, 256, 257, 319, 65_535, 65_536, 65_540, 99_999];
const WEIGHTS: &[u32] =
    &[0, 1, 9, 10, 1_023, 1_024, 1_025, 9_999, 10_000, 65_535, 65_536, 65_537, 66_000, 99_999];
const LONGEST: &[u32] =
    &[0, 1, 63, 64, 99, 100, 999, 1_000, 1_499, 1_500, 1_501, 65_599, 65_600, 67_036, 99_999];

/// A plan with no framing bytes and no shared lane.
pub fn plan(rng: &mut Rng) -> Setup {
    Setup { framing: 0, ..setups::plain(rng) }
}

pub fn sheet(rng: &mut Rng) -> Vec<u8> {
    let plan = plan(rng);
    let right = write(&plan).expect("no framing bytes");
    match rng.below(10) {
        0 | 1 => right,
        2 => {
            let length = rng.pick(&[0, 0, 1, 7, 40]);
            rng.bytes(length)
        }
        3 => right[..rng.index(right.len() + 1)].to_vec(),
        4 | 5 => numbers(rng, &plan),
        6 => lines(rng, &right),
        _ => {
            let mut sheet = right;
            for _ in 0..rng.pick(&[1, 1, 1, 2, 3]) {
                byte(rng, &mut sheet);
            }
            sheet
        }
    }
}

/// Some numbers of the plan at an edge, a lane that does not rise, the sum at its own edge.
fn numbers(rng: &mut Rng, plan: &Setup) -> Vec<u8> {
    let line = |lane: &crate::setup::LanePlan| [lane.number.into(), lane.weight.into(), lane.longest.into()];
    let mut lines: Vec<[u32; 3]> = plan.lanes.iter().map(line).collect();
    // Several in one line, so that their order is seen, or in several lines.
    let one = rng.once_in(2).then(|| rng.index(lines.len()));
    for _ in 0..rng.pick(&[1, 2, 2, 3]) {
        let at = one.unwrap_or_else(|| rng.index(lines.len()));
        match rng.below(5) {
            0 => lines[at][0] = rng.pick(LANES),
            1 => lines[at][0] = lines[at.saturating_sub(1)][0],
            2 => lines[at][1] = rng.pick(WEIGHTS),
            3 => lines[at][2] = rng.pick(LONGEST),
            _ => {
                let sum: u32 = lines.iter().map(|line| line[1]).sum();
                lines[at][1] = (lines[at][1] + 1_024 + rng.below(2) as u32).saturating_sub(sum);
            }
        }
    }
    let text: String = lines.iter().map(|[a, b, c]| format!("{a} {b} {c}\n")).collect();
    text.into_bytes()
}

/// Two lines exchanged, one twice, one left out, an empty one, or one that ends with a carriage return too.
fn lines(rng: &mut Rng, sheet: &[u8]) -> Vec<u8> {
    let mut lines: Vec<&[u8]> = sheet.split_inclusive(|byte| *byte == b'\n').collect();
    let (one, other) = (rng.index(lines.len()), rng.index(lines.len()));
    let returned = [&lines[one][..lines[one].len() - 1], b"\r\n"].concat();
    match rng.below(5) {
        0 => lines.swap(one, other),
        1 => lines.insert(other, lines[one]),
        2 => drop(lines.remove(one)),
        3 => lines[one] = &returned,
        _ => lines.insert(one, b"\n"),
    }
    lines.concat()
}

/// A byte changed, put in or taken out: digits, spaces and line feeds more often than others.
fn byte(rng: &mut Rng, sheet: &mut Vec<u8>) {
    let new = match rng.below(3) {
        0 => rng.pick(b"0123456789"),
        1 => rng.pick(b" \n\r\t0-+.,"),
        _ => rng.byte(),
    };
    let at = rng.index(sheet.len() + 1);
    match rng.below(4) {
        0 if at < sheet.len() => sheet[at] = new,
        1 if at < sheet.len() => drop(sheet.remove(at)),
        // A digit before a number or behind it, a 0 among them.
        2 => {
            let edges: Vec<usize> = (0..sheet.len())
                .filter(|at| sheet[*at].is_ascii_digit() && (*at == 0 || !sheet[at - 1].is_ascii_digit()))
                .collect();
            let at = if edges.is_empty() { 0 } else { rng.pick(&edges) };
            sheet.insert(at, rng.pick(b"0001"));
        }
        _ => sheet.insert(at, new),
    }
}
