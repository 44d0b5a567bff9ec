//! Faults in inputs: in a list of whole fields, and in bytes.

use crate::rng::Rng;
use crate::session;
use crate::setup;

const TAGS: &[u8] = &[
    0x00, 0x01, 0x02, 0x10, 0x11, 0x12, 0x13, 0x20, 0x21, 0x22, 0x23, 0x24, 0x25, 0x26, 0x27, 0x7E, 0x7F,
    0x80, 0xFF,
];
const BYTES: &[u8] =
    &[0x00, 0x01, 0x02, 0x03, 0x04, 0x05, 0x07, 0x08, 0x10, 0x20, 0x3F, 0x40, 0x7F, 0x80, 0xFE, 0xFF];
const WEIGHTS: &[u16] = &[0, 1, 2, 255, 256, 512, 1_022, 1_023, 1_024, 1_025, 1_026, 0x8001, 65_535];
const LONGESTS: &[u16] = &[0, 1, 63, 64, 65, 320, 1_499, 1_500, 1_501, 0x0540, 65_535];
const FRAMINGS: &[u8] = &[0, 1, 2, 63, 64, 65, 128, 255];
const LANE_NUMBERS: &[u8] = &[0, 1, 2, 31, 62, 63, 64, 65, 128, 255];

/// One to three faults in a list of fields; the fields stay whole unless a fault says otherwise.
pub fn fields(rng: &mut Rng, fields: &mut Vec<Vec<u8>>) {
    for _ in 0..rng.between(1, 3) {
        if fields.is_empty() {
            return;
        }
        let at = rng.index(fields.len());
        match rng.below(16) {
            14 | 15 => shared_field(rng, fields),
            12 => {
                // In place, in each wrong place, and twice.
                let at = rng.index(fields.len() + 1);
                fields.insert(rng.pick(&[0, 1, 1, at]).min(fields.len()), framed(rng));
            }
            13 => {
                let field = framed(rng);
                if let Some(own) = fields.iter_mut().find(|field| field.first() == Some(&setup::FRAMED)) {
                    *own = field;
                } else {
                    fields.insert(1, field);
                }
            }
            0 => fields.insert(at, fields[at].clone()),
            1 => drop(fields.remove(at)),
            2 => {
                let other = rng.index(fields.len());
                fields.swap(at, other);
            }
            3 => tag_of(rng, &mut fields[at]),
            4 => length_of(rng, &mut fields[at]),
            5 | 6 => numbers_of_some_lane(rng, fields),
            7 => {
                fields[0] =
                    rng.pick(&[[1, 0, 2, 0, 0], [1, 0, 2, 0, 2], [1, 0, 2, 1, 1], [1, 0, 3, 0, 1]]).to_vec()
            }
            8 => fields.push(tail(rng)),
            9 => fields.truncate(at),
            10 => {
                let keep = rng.index(fields[at].len() + 1);
                fields[at].truncate(keep);
                fields.truncate(at + 1);
            }
            _ => fields.insert(at, whole_field(rng)),
        }
    }
}

/// A tag with a right or a wrong length and a value as long as the length says.
fn whole_field(rng: &mut Rng) -> Vec<u8> {
    let length = rng.pick(&[0, 0, 1, 2, 3, 4, 5, 6, 7, 8]);
    let mut field = vec![rng.pick(TAGS), 0, length];
    field.extend((0..length).map(|_| rng.pick(BYTES)));
    field
}

/// A framing field, of the right length mostly.
fn framed(rng: &mut Rng) -> Vec<u8> {
    let value = rng.pick(FRAMINGS);
    match rng.below(8) {
        0 => vec![setup::FRAMED, 0, 0],
        1 => vec![setup::FRAMED, 0, 2, 0, value],
        _ => vec![setup::FRAMED, 0, 1, value],
    }
}

/// A shared lane's field in place or not; and the list's other faults now and then.
pub fn shared(rng: &mut Rng, whole: &mut Vec<Vec<u8>>) {
    shared_field(rng, whole);
    if rng.once_in(8) {
        fields(rng, whole);
    }
}

/// A shared lane's field in place, of another lane, in any place, twice, behind another field, or of a wrong length.
fn shared_field(rng: &mut Rng, whole: &mut Vec<Vec<u8>>) {
    let lanes: Vec<usize> =
        (0..whole.len()).filter(|&i| whole[i].len() >= 6 && whole[i][0] == setup::LANE).collect();
    if lanes.is_empty() {
        return;
    }
    let at = rng.pick(&lanes);
    let lane = whole[at][3];
    let own = vec![setup::SHARED, 0, 1, lane];
    let any = rng.index(whole.len() + 1);
    match rng.below(8) {
        0 | 7 => whole.insert(at + 1, own),
        1 => {
            let other =
                rng.pick(&[lane ^ 1, lane ^ 64, lane ^ 128, lane.wrapping_add(1), whole[lanes[0]][3]]);
            whole.insert(at + 1, vec![setup::SHARED, 0, 1, other]);
        }
        2 => whole.insert(any, own),
        3 => whole.insert(at, own),
        4 => {
            whole.insert(at + 1, own.clone());
            whole.insert(at + 2, own);
        }
        5 => whole.insert(
            at + 1,
            rng.pick(&[&[setup::SHARED, 0, 0][..], &[setup::SHARED, 0, 2, lane, lane]]).to_vec(),
        ),
        _ => {
            whole.insert(at + 1, framed(rng));
            whole.insert(at + rng.index(2) + 1, own);
        }
    }
}

fn tail(rng: &mut Rng) -> Vec<u8> {
    match rng.below(3) {
        0 => vec![rng.byte()],
        1 => vec![session::END, 0, 0],
        _ => whole_field(rng),
    }
}

fn tag_of(rng: &mut Rng, field: &mut [u8]) {
    if let Some(tag) = field.first_mut() {
        *tag = rng.pick(TAGS);
    }
}

/// The field says another length than it has, or has another as well.
fn length_of(rng: &mut Rng, field: &mut Vec<u8>) {
    if field.len() < 3 {
        return;
    }
    let length = u16::from_be_bytes([field[1], field[2]]);
    let other = rng.pick(&[
        length.wrapping_add(1),
        length.wrapping_sub(1),
        length ^ 256,
        length ^ 2,
        0,
        3,
        5,
        65_535,
    ]);
    field[1..3].copy_from_slice(&other.to_be_bytes());
    if rng.once_in(2) && other < 300 {
        let fill = rng.pick(BYTES);
        field.resize(3 + usize::from(other), fill);
    }
}

/// A lane field gets numbers at the edges of what is allowed.
fn numbers_of_some_lane(rng: &mut Rng, fields: &mut [Vec<u8>]) {
    let lanes: Vec<usize> =
        (0..fields.len()).filter(|&i| fields[i].len() >= 6 && fields[i][0] == setup::LANE).collect();
    if lanes.is_empty() {
        return;
    }
    let field = &mut fields[rng.pick(&lanes)];
    if rng.once_in(2) {
        field[3] = rng.pick(LANE_NUMBERS);
    }
    if rng.once_in(2) {
        field[4..6].copy_from_slice(&rng.pick(WEIGHTS).to_be_bytes());
    }
    if field.len() == 8 && rng.once_in(2) {
        field[6..8].copy_from_slice(&rng.pick(LONGESTS).to_be_bytes());
    }
}

/// One to four faults in bytes.
pub fn bytes(rng: &mut Rng, bytes: &mut Vec<u8>) {
    for _ in 0..rng.between(1, 4) {
        if bytes.is_empty() {
            return;
        }
        let at = rng.index(bytes.len());
        match rng.below(6) {
            0 => bytes[at] ^= 1 << rng.below(8),
            1 => bytes[at] = rng.pick(BYTES),
            2 => drop(bytes.remove(at)),
            3 => bytes.insert(at, rng.byte()),
            4 => bytes.truncate(at),
            _ => bytes.push(rng.pick(BYTES)),
        }
    }
}

/// Bytes with no plan; some begin as a setup does.
pub fn noise(rng: &mut Rng) -> Vec<u8> {
    let mut bytes = if rng.once_in(2) { vec![setup::FORMAT, 0, 2, 0, rng.pick(&[1, 2])] } else { vec![] };
    for _ in 0..rng.index(40) {
        match rng.below(3) {
            0 => bytes.push(rng.byte()),
            1 => bytes.push(rng.pick(BYTES)),
            _ => bytes.extend(whole_field(rng)),
        }
    }
    bytes
}

/// A setup's bytes with faults, or noise.
pub fn setup(rng: &mut Rng, mut whole: Vec<Vec<u8>>) -> Vec<u8> {
    match rng.below(8) {
        0 => noise(rng),
        1 | 2 => {
            let mut flat = whole.concat();
            bytes(rng, &mut flat);
            flat
        }
        _ => {
            fields(rng, &mut whole);
            whole.concat()
        }
    }
}
