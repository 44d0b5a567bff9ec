//! Fields: tag, length, value (R8.1).

use crate::numbers::refusal;
use std::fmt;

/// A refusal of an input, 1 to 7 or 50 to 54, with its place: counted from 0 at the input's first byte.
#[derive(Clone, Copy, Debug, PartialEq, Eq)]
pub struct Fault {
    pub number: u8,
    pub place: u64,
}

impl Fault {
    pub fn at(number: u8, place: usize) -> Fault {
        Fault { number, place: place as u64 }
    }
}

impl fmt::Display for Fault {
    fn fmt(&self, f: &mut fmt::Formatter) -> fmt::Result {
        write!(f, "no {} {}", self.number, self.place)
    }
}

/// The tags that a part of the input knows, each with the lengths that are right for it.
pub type Part = [(u8, &'static [usize])];

/// A tag and a two-byte length.
const HEADER: usize = 3;

#[derive(Clone, Copy, Debug, PartialEq, Eq)]
pub struct Field<'a> {
    pub tag: u8,
    /// Where the tag stands.
    pub place: usize,
    pub value: &'a [u8],
    /// Where the next field's tag stands.
    pub next: usize,
}

impl Field<'_> {
    pub fn fault(&self, number: u8) -> Fault {
        Fault::at(number, self.place)
    }

    /// A fault of the number whose first byte stands so far into the value.
    pub fn fault_in_value(&self, number: u8, byte: usize) -> Fault {
        Fault::at(number, self.place + HEADER + byte)
    }
}

/// The field whose tag stands at `place`. The tests as far as R8.3 has them for every part: what comes after is not of
/// the field's form and is told by the part's own reader.
pub fn field<'a>(input: &'a [u8], place: usize, part: &Part) -> Result<Field<'a>, Fault> {
    let &[tag, high, low, ref rest @ ..] = &input[place..] else {
        // R8.4: nothing is left, and the place is the input's length.
        return Err(Fault::at(refusal::CUT, place));
    };
    let length = usize::from(u16::from_be_bytes([high, low]));
    let Some((_, lengths)) = part.iter().find(|(known, _)| *known == tag) else {
        return Err(Fault::at(refusal::TAG, place));
    };
    if !lengths.contains(&length) {
        return Err(Fault::at(refusal::LENGTH_OF_FIELD, place));
    }
    match rest.get(..length) {
        Some(value) => Ok(Field { tag, place, value, next: place + HEADER + length }),
        None => Err(Fault::at(refusal::CUT, place)),
    }
}
