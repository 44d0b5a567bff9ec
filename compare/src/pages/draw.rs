//! Random pages: of a drawn setup, with skipped fields where they may stand and where they may not, with fields and bytes that are off.

use super::{EDITION, END, SETTINGS, SKIPPED};
use crate::gen::{damage, setups};
use crate::rng::Rng;

/// Tags at both sides of each edge, those of setups and sessions among them.
const TAGS: &[u8] =
    &[0x00, 0x01, 0x10, 0x11, 0x20, 0x3F, 0x40, 0x41, 0x42, 0x7E, 0x7F, 0x80, 0x81, 0xC0, 0xFE, 0xFF];
const EDITIONS: &[u16] = &[0, 1, 2, 255, 256, 257, 0x7FFF, 0x8000, 65_534, 65_535];

/// A field of any length that two bytes can say.
pub fn field(tag: u8, value: &[u8]) -> Vec<u8> {
    let length = u16::try_from(value.len()).expect("a value of at most 65,535 bytes");
    let [high, low] = length.to_be_bytes();
    [&[tag, high, low], value].concat()
}

/// A field that is skipped: empty, short, as long as its high byte tells, or with a whole page inside.
pub fn skipped(rng: &mut Rng) -> Vec<u8> {
    let tag = rng.pick(&[SKIPPED, SKIPPED + 1, 0xC0, 0xFE, 0xFF]);
    let length = rng.pick(&[0, 0, 1, 2, 3, 5, 8, 255, 256, 257, 600]);
    let value = if rng.once_in(8) { field(END, &[]) } else { rng.bytes(length) };
    field(tag, &value)
}

fn some_skipped(rng: &mut Rng) -> Vec<Vec<u8>> {
    let count = rng.pick(&[0, 0, 1, 1, 2, 4]);
    (0..count).map(|_| skipped(rng)).collect()
}

pub fn edition(rng: &mut Rng) -> u16 {
    if rng.once_in(2) {
        rng.pick(EDITIONS)
    } else {
        rng.below(65_536) as u16
    }
}

/// The fields of a page that is read.
pub fn fields(rng: &mut Rng) -> Vec<Vec<u8>> {
    let plan = setups::setup(rng);
    let setup = setups::bytes(rng, &plan);
    let mut fields = vec![field(EDITION, &edition(rng).to_be_bytes())];
    fields.extend(some_skipped(rng));
    fields.push(field(SETTINGS, &setup));
    fields.extend(some_skipped(rng));
    fields.push(field(END, &[]));
    fields
}

pub fn page(rng: &mut Rng) -> Vec<u8> {
    let mut fields = fields(rng);
    match rng.below(10) {
        0 | 1 => fields.concat(),
        2 => {
            let page = fields.concat();
            page[..rng.index(page.len() + 1)].to_vec()
        }
        3 | 4 => inside(rng),
        5 => value(rng),
        6 | 7 => {
            for _ in 0..rng.pick(&[1, 1, 2, 3]) {
                order(rng, &mut fields);
            }
            fields.concat()
        }
        8 => {
            let length = rng.pick(&[0, 1, 2, 3, 8, 60]);
            (0..length).map(|_| rng.pick(TAGS)).collect()
        }
        _ => {
            let mut page = fields.concat();
            for _ in 0..rng.pick(&[1, 1, 2, 3]) {
                let at = rng.index(page.len());
                page[at] = if rng.once_in(2) { rng.pick(TAGS) } else { rng.byte() };
            }
            page
        }
    }
}

/// A setup with faults inside, and sometimes a later fault of the page, which is not told.
fn inside(rng: &mut Rng) -> Vec<u8> {
    let plan = setups::setup(rng);
    let mut inner = setups::fields(rng, &plan);
    if rng.once_in(6) {
        damage::shared(rng, &mut inner);
    } else if rng.once_in(6) {
        let at = rng.index(inner.len() + 1);
        inner.insert(at, skipped(rng));
    } else {
        damage::fields(rng, &mut inner);
    }
    let mut fields = vec![field(EDITION, &edition(rng).to_be_bytes())];
    fields.extend(some_skipped(rng));
    fields.push(field(SETTINGS, &inner.concat()));
    fields.extend(some_skipped(rng));
    fields.push(field(END, &[]));
    if rng.once_in(3) {
        order(rng, &mut fields);
    }
    fields.concat()
}

/// A 0x41 whose length is a little more or less than its setup's bytes: the setup is cut, runs on, or has bytes behind it.
fn value(rng: &mut Rng) -> Vec<u8> {
    let mut fields = fields(rng);
    let at = fields.iter().position(|field| field[0] == SETTINGS).expect("a page has a 0x41");
    let length = fields[at].len() - 3;
    let off = length + rng.pick(&[1, 2, 3, 4]);
    let other = if rng.once_in(2) { off } else { 2 * length - off.min(2 * length) };
    if rng.once_in(2) {
        // The bytes stay, and the length tells others.
        let [high, low] = (other as u16).to_be_bytes();
        fields[at][1..3].copy_from_slice(&[high, low]);
    } else {
        // The value itself is longer or shorter.
        let mut setup = fields[at][3..].to_vec();
        setup.resize(other, rng.pick(TAGS));
        fields[at] = field(SETTINGS, &setup);
    }
    fields.concat()
}

/// A field twice, left out, exchanged with another, of another tag or length, one more anywhere.
fn order(rng: &mut Rng, fields: &mut Vec<Vec<u8>>) {
    if fields.is_empty() {
        return;
    }
    let (at, other) = (rng.index(fields.len()), rng.index(fields.len()));
    match rng.below(8) {
        0 => fields.insert(other, fields[at].clone()),
        1 => drop(fields.remove(at)),
        2 => fields.swap(at, other),
        3 => fields[at][0] = rng.pick(TAGS),
        4 => {
            let low = rng.pick(&[0, 1, 2, 3, 255]);
            // What was pushed behind the end may be less than a header.
            if let Some(byte) = fields[at].get_mut(2) {
                *byte = low;
            }
        }
        5 => {
            let at = rng.pick(&[0, fields.len()]);
            fields.insert(at, skipped(rng));
        }
        6 => fields.push(rng.pick(&[&[0][..], &[END], &[END, 0, 0], &[SKIPPED, 0, 0]]).to_vec()),
        _ => {
            let length = rng.pick(&[0, 1, 2, 3, 256]);
            let (tag, value) = (rng.pick(TAGS), rng.bytes(length));
            fields.insert(other, field(tag, &value));
        }
    }
}

/// A page that is read, without its skipped fields.
pub fn bare(page: &[u8]) -> Vec<u8> {
    let mut bare = vec![];
    let mut place = 0;
    while place < page.len() {
        let next = place + 3 + usize::from(u16::from_be_bytes([page[place + 1], page[place + 2]]));
        if page[place] < SKIPPED {
            bare.extend(&page[place..next]);
        }
        place = next;
    }
    bare
}
