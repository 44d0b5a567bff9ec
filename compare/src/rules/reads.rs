//! The calls that only read, but for look: sets and lag.

use super::State;
use crate::calls::{Answer, Call};
use crate::numbers::refusal;

impl State {
    /// R4.4: the words ER, IR, EB and IB.
    pub fn sets(&self) -> [u64; 4] {
        // R4.1: a group's start and finish.
        let mut groups: [Option<(i128, i128)>; 32] = [None; 32];
        for lane in self.holding() {
            let (start, finish) = (lane.rounded_start, lane.rounded_finish());
            let group = &mut groups[lane.group as usize];
            *group = Some(group.map_or((start, finish), |(s, f)| (s.min(start), f.min(finish))));
        }
        let mut words = [0; 4];
        // The least finish of the eligible groups above: a group is blocked where that is below its own.
        let mut least_above = i128::MAX;
        for (i, group) in groups.iter().enumerate().rev() {
            let Some((start, finish)) = *group else { continue };
            let eligible = start <= self.clock;
            let word = match (eligible, least_above < finish) {
                (true, false) => 0,
                (false, false) => 1,
                (true, true) => 2,
                (false, true) => 3,
            };
            words[word] |= 1 << i;
            if eligible {
                least_above = least_above.min(finish);
            }
        }
        words
    }

    /// R3.18
    pub fn lag(&self, number: u8) -> Result<i64, u8> {
        let lane = self.lane(number).ok_or(refusal::NO_SUCH_LANE)?;
        let from = if lane.holds() { lane.start } else { lane.finish.max(self.clock) };
        Ok(i64::try_from(self.clock - from).expect("a lag fits 64 bits"))
    }

    /// The answer of a call that only reads.
    pub fn told(&self, call: &Call) -> Option<Answer> {
        let answer = match call {
            Call::Look => self.look().map(Answer::Looked),
            Call::Sets => Ok(Answer::Sets(self.sets())),
            Call::Lag { lane } => self.lag(*lane).map(Answer::Lag),
            _ => return None,
        };
        Some(answer.unwrap_or_else(Answer::No))
    }
}
