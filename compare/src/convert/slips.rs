//! The converter with one mistake, on the words of both layouts.

use super::{Converter, Refused};
use crate::calls::Taken;
use crate::layout::{self, old::THEN, Clause, CLAUSES, DEPTH_WORD, NOW, TABLE_SIZE};
use crate::numbers::{refusal, OLD_CLOCK_END, OLD_DEPTH};
use crate::on_words::{Lapse, OnWords};
use crate::rules::{Lane, Record, State, Waiting};
use crate::unit::Unit;

#[derive(Clone, Copy, Debug, PartialEq, Eq)]
pub enum Slip {
    None,
    /// A clause is not tested: an old table that breaks it alone is taken over.
    Untested(Clause),
    /// V must be below 2^62 + 2^42 - 1.
    ClockStrict,
    /// Sixteen records are too many.
    RecordsStrict,
    /// An old word that meant nothing must be 0: where the depth number lies today.
    FreeWordRead,
    /// Old places without a record must hold a length within the lane's numbers, as today's must.
    PlacesRead,
    /// An old table that is lent with more bytes than it has is refused.
    LongRefused,
    /// 10 is told before 7.
    TenFirst,
    /// 7 is told without its place.
    PlaceMissing,
    /// A refusal by 10 has written the new bytes.
    RefusalWrites,
    /// The old table gets today's depth number.
    OldWritten,
    /// A byte past the new table is written.
    PastWritten,
    /// The lanes of a list stand by their number.
    OrderLost,
    /// An idle lane forgets its F.
    IdleFinishLost,
    /// The line's framing bytes are forgotten.
    FramingLost,
    /// The sixteenth record is left behind.
    LastLost,
    /// V is taken over from the first word with all bits above 2^62 dropped.
    ClockCut,
    /// The new table's depth number is 16.
    DepthOld,
    /// Records stand at the places where they stood, so that a ring which went round its end is not joined.
    NotUnrolled,
    /// Places without a record keep the lengths that the bytes had.
    PlacesLeft,
    /// A length is not stored less one.
    LengthWhole,
    /// Of a mark the low half is taken over.
    MarkCut,
    /// Takes from the new table give 10 from the old clock's edge on.
    TakesByOldEdge,
}

/// Every slip.
pub fn slips() -> Vec<Slip> {
    use Slip::*;
    let old = CLAUSES.iter().filter(|clause| {
        !matches!(clause, Clause::Depth | Clause::Places) && !clause.of_trains() && !clause.of_pages()
    });
    let others = [
        ClockStrict,
        RecordsStrict,
        FreeWordRead,
        PlacesRead,
        LongRefused,
        TenFirst,
        PlaceMissing,
        RefusalWrites,
        OldWritten,
        PastWritten,
        OrderLost,
        IdleFinishLost,
        FramingLost,
        LastLost,
        ClockCut,
        DepthOld,
        NotUnrolled,
        PlacesLeft,
        LengthWhole,
        MarkCut,
        TakesByOldEdge,
    ];
    old.map(|clause| Untested(*clause)).chain(others).collect()
}

pub struct Slipped(pub Slip);

impl Slipped {
    /// Whether the old table is taken for good.
    fn passes(&self, old: &[u8]) -> bool {
        let reading = THEN.read(old);
        if let [broken] = reading.broken[..] {
            return self.0 == Slip::Untested(broken);
        }
        let Some(state) = reading.good() else { return false };
        match self.0 {
            Slip::ClockStrict => state.clock < OLD_CLOCK_END - 1,
            Slip::RecordsStrict => state.lanes.iter().all(|lane| lane.waiting.len() < OLD_DEPTH),
            Slip::FreeWordRead => layout::word(old, DEPTH_WORD) == 0,
            Slip::PlacesRead => state.holding().all(|lane| {
                let record = |place: u64| (THEN.record)(old, lane.plan.number, place);
                (0..THEN.depth).all(|place| (1..=lane.plan.longest.into()).contains(&record(place).length))
            }),
            Slip::LongRefused => old.len() == THEN.size,
            _ => true,
        }
    }

    /// The contents that are taken over.
    fn contents(&self, mut state: State) -> State {
        let framing = if self.0 == Slip::FramingLost { 0 } else { state.framing };
        for lane in &mut state.lanes {
            match self.0 {
                Slip::OrderLost => lane.since = lane.plan.number.into(),
                Slip::IdleFinishLost if !lane.holds() => lane.finish = 0,
                Slip::LastLost => {
                    if let Waiting::Own(queue) = &mut lane.waiting {
                        queue.truncate(OLD_DEPTH - 1);
                    }
                }
                Slip::FramingLost => {
                    let word = if lane.holds() { lane.start } else { lane.finish };
                    *lane = Lane::of(lane.plan, 0, lane.waiting.clone(), word, lane.since);
                }
                _ => {}
            }
        }
        let clock = if self.0 == Slip::ClockCut { state.clock % (1 << 62) } else { state.clock };
        State::of(clock, framing, state.lanes, state.back)
    }

    /// Lengths and marks of one lane, written anew.
    fn spoil(&self, lane: &Lane, old: &[u8], before: &[u8], table: &mut [u8]) {
        let at = lane.plan.number;
        let ((first, _), (was, _)) = (NOW.ring(table, at), THEN.ring(old, at));
        let Waiting::Own(queue) = &lane.waiting else { return };
        let count = queue.len() as u64;
        for (place, held) in (0..).zip(queue) {
            match self.0 {
                Slip::LengthWhole => {
                    let record = Record { length: held.length + 1, ..*held };
                    (NOW.set_record)(table, at, first + place, record);
                }
                Slip::MarkCut => {
                    let record = Record { mark: held.mark & 0xFFFF, ..*held };
                    (NOW.set_record)(table, at, first + place, record);
                }
                Slip::NotUnrolled => (NOW.set_record)(table, at, (was + place) % THEN.depth, *held),
                _ => {}
            }
        }
        match self.0 {
            Slip::NotUnrolled => layout::set_word(table, layout::ring(at), was + NOW.depth * count),
            Slip::PlacesLeft if lane.holds() => {
                for place in first + count..first + NOW.depth {
                    (NOW.set_record)(table, at, place, (NOW.record)(before, at, place));
                }
            }
            _ => {}
        }
    }
}

impl Converter for Slipped {
    fn convert(&mut self, old: &mut [u8], table: &mut [u8]) -> Result<(), Refused> {
        let short = table.len() < TABLE_SIZE;
        let seven = match self.0 {
            Slip::PlaceMissing => Refused::by(refusal::TABLE_SHORT.into()),
            _ => Refused::at(refusal::TABLE_SHORT.into(), 0),
        };
        if short && self.0 != Slip::TenFirst {
            return Err(seven);
        }
        if !self.passes(old) {
            if self.0 == Slip::RefusalWrites {
                table[0] ^= 1;
            }
            return Err(Refused::by(refusal::NOT_GOOD.into()));
        }
        if short {
            return Err(seven);
        }
        let Some(state) = THEN.read(old).state else { return Ok(()) };
        let (state, before) = (self.contents(state), table.to_vec());
        layout::write(&state, table);
        state.lanes.iter().for_each(|lane| self.spoil(lane, old, &before, table));
        match self.0 {
            Slip::OldWritten => layout::set_word(old, DEPTH_WORD, NOW.depth),
            Slip::DepthOld => layout::set_word(table, DEPTH_WORD, THEN.depth),
            Slip::PastWritten if table.len() > TABLE_SIZE => table[TABLE_SIZE] ^= 1,
            _ => {}
        }
        Ok(())
    }

    fn take(&mut self, table: &mut [u8]) -> Result<Taken, u8> {
        let lapse = if self.0 == Slip::TakesByOldEdge { Lapse::ClockOld } else { Lapse::None };
        OnWords { lapse }.take(table)
    }
}
