//! The group sets (R4.6 to R4.8): each holding group has its bit in one of the four words; the lowest bit of ER is the group that is served next; and from bit
//! to bit of ER finishes do not fall.

use crate::rules::State;

pub fn check(state: &State) -> Result<(), String> {
    laws_of(state, state.sets())
}

/// The laws of four words that are said to be the state's.
pub fn laws_of(state: &State, words: [u64; 4]) -> Result<(), String> {
    let holding = state.holding().fold(0_u64, |groups, lane| groups | 1 << lane.group);
    let union = words.iter().fold(0, |union, word| union | word);
    let bits: u32 = words.iter().map(|word| word.count_ones()).sum();
    if union != holding || bits != holding.count_ones() {
        return Err(format!("{words:?} do not part the groups {holding} that hold records"));
    }
    let eligible_ready = words[0];
    let first = (eligible_ready != 0).then(|| eligible_ready.trailing_zeros());
    let chosen = state.chosen().map(|lane| lane.group);
    if first != chosen {
        return Err(format!("the first eligible-ready group is {first:?}, the chosen lane's {chosen:?}"));
    }
    let mut finishes = [i128::MAX; 64];
    for lane in state.holding() {
        let finish = &mut finishes[lane.group as usize];
        *finish = lane.rounded_finish().min(*finish);
    }
    let mut last = i128::MIN;
    for group in (0..64).filter(|i| eligible_ready >> i & 1 == 1) {
        if finishes[group] < last {
            return Err(format!("finishes fall along the eligible-ready word at group {group}"));
        }
        last = finishes[group];
    }
    Ok(())
}
