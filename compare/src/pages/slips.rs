//! The reader once more, built otherwise: the fields are listed first, each with its own faults, and then gone through. It can make one mistake, and
//! the comparison must find each.

use super::{Page, Reads};
use crate::fields::Fault;
use crate::setup::{self, Setup};

macro_rules! slips {
    ($($(#[$what:meta])* $name:ident),* $(,)?) => {
        #[derive(Clone, Copy, Debug, PartialEq, Eq)]
        pub enum Slip { None, $($(#[$what])* $name),* }
        pub const ALL: &[Slip] = &[$(Slip::$name),*];
    };
}

slips! {
    /// Skipped fields may stand before 0x40.
    SkippedFirst,
    /// Skipped fields may stand behind 0x7F.
    SkippedLast,
    /// Skipped fields may stand between 0x40 and 0x41 alone.
    SkippedOnce,
    /// Only one field is skipped in a row.
    OneSkipped,
    /// Unknown tags below 0x80 are skipped.
    LowSkipped,
    /// 0x80 itself is unknown.
    FirstUnknown,
    /// 0xFF is unknown.
    LastUnknown,
    /// The length of a skipped field is its low byte.
    ShortSkipped,
    /// A skipped field of 256 bytes or more has a wrong length.
    LongRefused,
    /// A skipped field's value may run past the end.
    CutSkipped,
    /// The edition is its low byte.
    EditionLow,
    /// The edition's low byte comes first.
    EditionTurned,
    /// 0x40 may stand again, and the later one counts.
    EditionAgain,
    /// 0x41 may stand again, and the later one counts.
    SettingsAgain,
    /// The edition may come behind the setup.
    AnyOrder,
    /// A page may end without 0x7F.
    NoEnd,
    /// Bytes after 0x7F are not looked at.
    ByteAfter,
    /// A byte after 0x7F is told at the 0x7F.
    AfterAtEnd,
    /// A fault of the setup is told at its place in the setup.
    NotMoved,
    /// A fault of the setup is counted from the 0x41's tag.
    MovedFromTag,
    /// A fault of the setup is told at the 0x41's tag.
    AtTag,
    /// The setup may run past its value.
    RunsOn,
    /// Bytes behind the setup's own 0x7F are not looked at.
    BehindSetup,
    /// Fields of 0x80 and above are skipped inside the setup too.
    SkippedInside,
    /// The setup is read once the whole page is seen to be in order.
    SetupLast,
    /// 4 is told before 3.
    OrderBeforeLength,
    /// 4 is told before 1 of a value.
    OrderBeforeValue,
    /// 1 of a value is told before 3.
    ValueBeforeLength,
    /// A header that is cut is told at the page's length.
    CutAtLength,
    /// A page that just stops is out of order.
    StopsOutOfOrder,
    /// 0x41 has at most 255 bytes.
    ShortSettings,
}

pub struct Slipped(pub Slip);

/// A field as it is listed: what its header says, and what is wrong with it alone.
struct Listed {
    tag: u8,
    place: usize,
    value: usize,
    next: usize,
    fault: Option<Fault>,
}

impl Slipped {
    fn is(&self, slip: Slip) -> bool {
        self.0 == slip
    }

    fn skips(&self, tag: u8) -> bool {
        tag >= 0x80 || self.is(Slip::LowSkipped) && ![0x40, 0x41, 0x7F].contains(&tag)
    }

    fn known(&self, tag: u8) -> bool {
        let unknown = self.is(Slip::FirstUnknown) && tag == 0x80 || self.is(Slip::LastUnknown) && tag == 0xFF;
        [0x40, 0x41, 0x7F].contains(&tag) || self.skips(tag) && !unknown
    }

    /// The fields in order, up to the first that has a fault or the 0x7F, and the bytes that are left behind it.
    fn list(&self, page: &[u8]) -> Vec<Listed> {
        let mut listed = vec![];
        let mut place = 0;
        loop {
            let left = page.len() - place;
            if left < 3 {
                let at = if self.is(Slip::CutAtLength) { page.len() } else { place };
                let number = if left == 0 && self.is(Slip::StopsOutOfOrder) { 4 } else { 1 };
                let fault = Some(Fault::at(number, at));
                listed.push(Listed { tag: 0, place, value: place, next: page.len(), fault });
                return listed;
            }
            let tag = page[place];
            let mut length = 256 * usize::from(page[place + 1]) + usize::from(page[place + 2]);
            if self.skips(tag) && self.is(Slip::ShortSkipped) {
                length %= 256;
            }
            let wrong = match tag {
                0x40 => length != 2,
                0x7F => length != 0,
                0x41 => self.is(Slip::ShortSettings) && length > 255,
                _ => self.is(Slip::LongRefused) && length > 255,
            };
            let cut = length > left - 3 && !(self.skips(tag) && self.is(Slip::CutSkipped));
            let mut fault = None;
            if !self.known(tag) {
                fault = Some(2);
            } else if cut && self.is(Slip::ValueBeforeLength) {
                fault = Some(1);
            } else if wrong {
                fault = Some(3);
            } else if cut {
                fault = Some(1);
            }
            let next = (place + 3 + length).min(page.len());
            listed.push(Listed {
                tag,
                place,
                value: place + 3,
                next,
                fault: fault.map(|number| Fault::at(number, place)),
            });
            if fault.is_some() || tag == 0x7F {
                return listed;
            }
            place = next;
        }
    }

    fn setup(&self, page: &[u8], field: &Listed) -> Result<Setup, Fault> {
        let end = if self.is(Slip::RunsOn) { page.len() } else { field.next };
        let mut value = page[field.value..end].to_vec();
        if self.is(Slip::SkippedInside) {
            value = without_skipped(&value);
        }
        let loose = self.is(Slip::RunsOn) || self.is(Slip::BehindSetup);
        let read = if loose { setup::read(&value).map(|(setup, _)| setup) } else { setup::whole(&value) };
        let by = match self.0 {
            Slip::NotMoved => 0,
            Slip::MovedFromTag => field.place,
            _ => field.value,
        };
        read.map_err(|fault| {
            let place = if self.is(Slip::AtTag) { field.place } else { fault.place as usize + by };
            Fault::at(fault.number, place)
        })
    }

    fn read(&self, page: &[u8]) -> Result<Page, Fault> {
        let mut edition: Option<u16> = None;
        let mut setup: Option<Setup> = None;
        let mut waiting = Ok(());
        let mut in_a_row = 0;
        for field in self.list(page) {
            let order = match field.tag {
                0x40 => {
                    edition.is_some() && !self.is(Slip::EditionAgain)
                        || setup.is_some() && !self.is(Slip::AnyOrder)
                }
                0x41 => {
                    edition.is_none() && !self.is(Slip::AnyOrder)
                        || setup.is_some() && !self.is(Slip::SettingsAgain)
                }
                0x7F => edition.is_none() || setup.is_none(),
                _ => {
                    edition.is_none() && setup.is_none() && !self.is(Slip::SkippedFirst)
                        || self.is(Slip::SkippedOnce) && setup.is_some()
                        || self.is(Slip::OneSkipped) && in_a_row > 0
                }
            };
            if let Some(fault) = field.fault {
                if let (1, true, Slip::NoEnd, Some(edition), Some(setup)) =
                    (fault.number, field.place == page.len(), self.0, edition, &setup)
                {
                    return Ok(Page { edition, setup: setup.clone() });
                }
                let early = match fault.number {
                    3 => self.is(Slip::OrderBeforeLength),
                    1 => self.is(Slip::OrderBeforeValue) && page.len() - field.place >= 3,
                    _ => false,
                };
                return Err(if early && order { Fault::at(4, field.place) } else { fault });
            }
            if order {
                return Err(Fault::at(4, field.place));
            }
            in_a_row = if self.skips(field.tag) { in_a_row + 1 } else { 0 };
            match field.tag {
                0x40 => {
                    let (high, low) = (page[field.value], page[field.value + 1]);
                    edition = Some(match self.0 {
                        Slip::EditionLow => u16::from(low),
                        Slip::EditionTurned => u16::from_le_bytes([high, low]),
                        _ => u16::from_be_bytes([high, low]),
                    });
                }
                0x41 => match self.setup(page, &field) {
                    Ok(read) => setup = Some(read),
                    Err(fault) if self.is(Slip::SetupLast) => {
                        waiting = Err(fault);
                        setup = Some(Setup { format: 1, framing: 0, lanes: vec![] });
                    }
                    Err(fault) => return Err(fault),
                },
                0x7F => {
                    let mut rest = field.next;
                    if self.is(Slip::SkippedLast) && page.get(rest).is_some_and(|tag| *tag >= 0x80) {
                        rest = page.len();
                    }
                    if rest < page.len() && !self.is(Slip::ByteAfter) {
                        return Err(Fault::at(4, if self.is(Slip::AfterAtEnd) { field.place } else { rest }));
                    }
                    waiting?;
                    let (Some(edition), Some(setup)) = (edition, setup) else {
                        return Err(Fault::at(4, field.place));
                    };
                    return Ok(Page { edition, setup });
                }
                _ => {}
            }
        }
        unreachable!("a list of fields ends with a fault or with 0x7F")
    }
}

/// Bytes without the fields of 0x80 and above that stand among them.
fn without_skipped(bytes: &[u8]) -> Vec<u8> {
    let mut kept = vec![];
    let mut place = 0;
    while bytes.len() - place >= 3 {
        let length = 256 * usize::from(bytes[place + 1]) + usize::from(bytes[place + 2]);
        let next = (place + 3 + length).min(bytes.len());
        if bytes[place] < 0x80 {
            kept.extend(&bytes[place..next]);
        }
        place = next;
    }
    kept.extend(&bytes[place..]);
    kept
}

impl Reads for Slipped {
    fn read(&mut self, page: &[u8]) -> Result<Page, Fault> {
        Slipped::read(self, page)
    }
}
