//! Valid setups: each flavour aims at a corner of the rules.

use crate::numbers::*;
use crate::rng::Rng;
use crate::setup::{LanePlan, Setup, END, FORMAT, FRAMED, LANE, SHARED};

const FLAVOURS: &[fn(&mut Rng) -> Setup] = &[
    one_lane,
    two_lanes,
    full,
    equal,
    many_groups,
    one_heavy,
    light,
    extreme_longest,
    twins,
    three_heights,
    anything,
];

/// A setup with no shared lane.
pub fn plain(rng: &mut Rng) -> Setup {
    let flavour = rng.pick(FLAVOURS);
    Setup { format: rng.between(1, 2) as u16, framing: framing(rng), ..flavour(rng) }
}

/// A setup with shared lanes, all of them or some among the others, in half of the cases.
pub fn setup(rng: &mut Rng) -> Setup {
    let mut setup = plain(rng);
    let often = rng.pick(&[0, 0, 0, 1, 2, 4]);
    if often > 0 {
        setup.lanes.iter_mut().for_each(|lane| lane.shared = rng.once_in(often));
    }
    setup
}

fn framing(rng: &mut Rng) -> u8 {
    match rng.below(4) {
        0 => rng.pick(&[1, 8, 63, 64, 64]),
        1 => rng.between(0, 64) as u8,
        _ => 0,
    }
}

/// The setup's bytes; a longest that is the format's own and a framing number of 0 are left unsaid now and then.
pub fn bytes(rng: &mut Rng, setup: &Setup) -> Vec<u8> {
    fields(rng, setup).concat()
}

pub fn fields(rng: &mut Rng, setup: &Setup) -> Vec<Vec<u8>> {
    let [high, low] = setup.format.to_be_bytes();
    let mut fields = vec![vec![FORMAT, 0, 2, high, low]];
    if setup.framing != 0 || rng.once_in(4) {
        fields.push(vec![FRAMED, 0, 1, setup.framing]);
    }
    for plan in &setup.lanes {
        let [w1, w0] = plan.weight.to_be_bytes();
        let [l1, l0] = plan.longest.to_be_bytes();
        let unsaid = plan.longest == longest_unsaid(setup.format) && rng.once_in(2);
        fields.push(if unsaid {
            vec![LANE, 0, 3, plan.number, w1, w0]
        } else {
            vec![LANE, 0, 5, plan.number, w1, w0, l1, l0]
        });
        if plan.shared {
            fields.push(vec![SHARED, 0, 1, plan.number]);
        }
    }
    fields.push(vec![END, 0, 0]);
    fields
}

/// `count` rising lane numbers.
fn numbers(rng: &mut Rng, count: usize) -> Vec<u8> {
    let mut all: Vec<u8> = (0..LANES).collect();
    while all.len() > count {
        let at = rng.index(all.len());
        all.remove(at);
    }
    all
}

fn longest(rng: &mut Rng) -> u16 {
    match rng.below(6) {
        0 => *LONGEST.start(),
        1 => *LONGEST.end(),
        2 => rng.pick(&[65, 127, 128, 129, 255, 256, 512, 576, 576, 576, 1_023, 1_024, 1_025, 1_499]),
        _ => rng.between(64, 1_500) as u16,
    }
}

/// A setup of these weights; if they sum to too much the last lanes get less, down to 1, and then go.
fn of_weights(rng: &mut Rng, weights: &[u16], mut longest: impl FnMut(&mut Rng) -> u16) -> Setup {
    let mut left = WEIGHT_SUM as u16;
    let numbers = numbers(rng, weights.len());
    let mut lanes = Vec::new();
    for (&weight, number) in weights.iter().zip(numbers) {
        let weight = weight.min(left);
        if weight > 0 {
            left -= weight;
            lanes.push(LanePlan { number, weight, longest: longest(rng), shared: false });
        }
    }
    Setup { format: 1, framing: 0, lanes }
}

fn one_lane(rng: &mut Rng) -> Setup {
    let weight =
        if rng.once_in(2) { rng.pick(&[1, 2, 3, 512, 1_023, 1_024]) } else { rng.between(1, 1_024) as u16 };
    of_weights(rng, &[weight], longest)
}

fn two_lanes(rng: &mut Rng) -> Setup {
    let first = rng.pick(&[1, 3, 64, 255, 256, 512, 1_023]);
    let second = rng.between(1, u64::from(1_024 - first)) as u16;
    of_weights(rng, &[first, second], longest)
}

/// All 64 lanes, the line's weight parted at random or evenly.
fn full(rng: &mut Rng) -> Setup {
    let mut weights = vec![1_u16; usize::from(LANES)];
    let mut left = WEIGHT_SUM as u16 - u16::from(LANES);
    if rng.once_in(2) {
        weights.fill(16);
        left = 0;
    }
    while left > 0 {
        let part = rng.between(1, u64::from(left.min(60))) as u16;
        let at = rng.index(weights.len());
        weights[at] += part;
        left -= part;
    }
    of_weights(rng, &weights, longest)
}

fn equal(rng: &mut Rng) -> Setup {
    let count = rng.between(2, 64) as usize;
    let weight = rng.between(1, 1_024 / count as u64) as u16;
    let same = longest(rng);
    of_weights(rng, &vec![weight; count], move |_| same)
}

/// Weights fall by halves and longest spreads, so that most of the sixteen groups hold lanes.
fn many_groups(rng: &mut Rng) -> Setup {
    let halves = [512, 256, 128, 64, 32, 16, 8, 4, 2, 1, 1];
    let mut weights = Vec::new();
    for weight in halves {
        if !rng.once_in(4) {
            weights.push(weight);
        }
    }
    weights.push(1);
    for at in (1..weights.len()).rev() {
        weights.swap(at, rng.index(at + 1));
    }
    of_weights(rng, &weights, |rng| rng.pick(&[64, 64, 128, 256, 512, 1_024, 1_500]))
}

/// One heavy lane beside lanes of weight 1.
fn one_heavy(rng: &mut Rng) -> Setup {
    let light = rng.between(1, 63) as usize;
    let mut weights = vec![1; light + 1];
    let at = rng.index(weights.len());
    weights[at] = 1_024 - light as u16;
    of_weights(rng, &weights, longest)
}

/// Weights that sum to little: the clock falls behind, so takes and puts jump.
fn light(rng: &mut Rng) -> Setup {
    let count = rng.between(1, 8) as usize;
    let weights: Vec<u16> = (0..count).map(|_| rng.between(1, 3) as u16).collect();
    of_weights(rng, &weights, longest)
}

fn extreme_longest(rng: &mut Rng) -> Setup {
    let count = rng.between(2, 64) as usize;
    let weights: Vec<u16> = (0..count).map(|_| rng.between(1, 32) as u16).collect();
    of_weights(rng, &weights, |rng| rng.pick(&[64, 1_500]))
}

/// Lanes in pairs of neighbouring groups whose rounded finishes often meet.
fn twins(rng: &mut Rng) -> Setup {
    let weight = rng.pick(&[8, 16, 32, 64]);
    let count = rng.between(1, 8) as usize;
    let weights = [weight, weight / 2].repeat(count);
    of_weights(rng, &weights, |rng| rng.pick(&[64, 128]))
}

/// A lane of a low group that moves the clock in small steps, one or two of a middle group, and lanes of a high group
/// that fill the line and their slots.
fn three_heights(rng: &mut Rng) -> Setup {
    let high = rng.pick(&[16_u16, 32]);
    let middle = high * rng.pick(&[2, 4]);
    let mut weights = vec![rng.pick(&[256, 512]), middle];
    if rng.once_in(2) {
        weights.push(middle);
    }
    let filled: u16 = weights.iter().sum();
    let low = weights.len();
    weights.resize(low + usize::from((1_024 - filled) / high), high);
    let longest = rng.pick(&[64, 128]);
    of_weights(rng, &weights, move |_| longest)
}

fn anything(rng: &mut Rng) -> Setup {
    let count = rng.between(1, 64) as usize;
    let most = rng.pick(&[2, 16, 64, 700]);
    let weights: Vec<u16> = (0..count).map(|_| rng.between(1, most) as u16).collect();
    of_weights(rng, &weights, longest)
}
