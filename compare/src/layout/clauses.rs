//! The clauses of a good table (docs/RULES.md, R6), with what is stored beside the contents, and what a reader says of a table's bytes.

use crate::rules::State;

#[derive(Clone, Copy, Debug, PartialEq, Eq)]
pub enum Clause {
    /// R6.2: as many bytes as the layout has.
    Long,
    /// The depth number, which tells this layout from the one before it.
    Depth,
    /// h: 0 to 64, and no other bit of its word.
    Framing,
    /// R1.1: at least one lane.
    Lanes,
    /// R1.2: each weight,
    Weight,
    /// and their sum.
    WeightSum,
    /// R1.3
    Longest,
    /// The stored c.
    UnitsPerByte,
    /// The stored group.
    Group,
    /// No more records than a lane has room for.
    Records,
    /// R6.4: the length of each record.
    Length,
    /// In a lane that holds records the places without one have a length of 1 to the lane's longest too.
    Places,
    /// The row of a shared lane counts the records of all its trains.
    TrainsCounted,
    /// A train holds 0 to 8 records.
    TrainRecords,
    /// The round names each train that holds records once, nothing else, and nothing stands behind those.
    Round,
    /// R18.8: a train without records has no deficit;
    EmptyDeficit,
    /// that of the train in turn covers its first record
    TurnCovers,
    /// and is less than two longest;
    TurnBelow,
    /// that of each other does not cover its first record.
    OthersBelow,
    /// V below its end.
    Clock,
    /// R6.6: S is less than two slots ahead of V,
    StartAhead,
    /// and R less than two slots and M behind it.
    StartBehind,
    /// R6.7: F of an idle lane is less than two slots ahead.
    FinishAhead,
    /// R6.8
    Eligible,
    /// What was taken off the clock is a multiple of 2^31 below 2^36.
    Back,
    /// Only groups 16 to 31 and lists 0 to 31 are marked; a marked group has a marked list, and a marked list a lane.
    Marks,
    /// R6.9, R6.11: each holding lane stands once, in the list of its group and its S, and no other lane stands in one.
    Lists,
    /// The stored start of a group is the least R of its lanes.
    Starts,
    /// The edition last taken has two bytes,
    LastEdition,
    /// and so has that of a page that waits,
    NewEdition,
    /// and the waiting one is the greater of the two (R19.11).
    EditionAbove,
    /// R19.11: while a page waits a lane holds.
    PageHeld,
    /// The waiting page's plan is within the numbers.
    PagePlan,
}

pub const CLAUSES: &[Clause] = &[
    Clause::Long,
    Clause::Depth,
    Clause::Framing,
    Clause::Lanes,
    Clause::Weight,
    Clause::WeightSum,
    Clause::Longest,
    Clause::UnitsPerByte,
    Clause::Group,
    Clause::Records,
    Clause::Length,
    Clause::Places,
    Clause::TrainsCounted,
    Clause::TrainRecords,
    Clause::Round,
    Clause::EmptyDeficit,
    Clause::TurnCovers,
    Clause::TurnBelow,
    Clause::OthersBelow,
    Clause::Clock,
    Clause::StartAhead,
    Clause::StartBehind,
    Clause::FinishAhead,
    Clause::Eligible,
    Clause::Back,
    Clause::Marks,
    Clause::Lists,
    Clause::Starts,
    Clause::LastEdition,
    Clause::NewEdition,
    Clause::EditionAbove,
    Clause::PageHeld,
    Clause::PagePlan,
];

impl Clause {
    /// Whether it speaks of trains, which old tables have not.
    pub fn of_trains(self) -> bool {
        use Clause::*;
        matches!(
            self,
            TrainsCounted | TrainRecords | Round | EmptyDeficit | TurnCovers | TurnBelow | OthersBelow
        )
    }

    /// Whether it speaks of settings pages, which old tables have not either.
    pub fn of_pages(self) -> bool {
        use Clause::*;
        matches!(self, LastEdition | NewEdition | EditionAbove | PageHeld | PagePlan)
    }

    /// Whether a call on a good table may leave one that breaks the clause, as R6.13 allows where no call made the table. What is
    /// stored is never spoiled.
    pub fn may_be_lost(self) -> bool {
        use Clause::*;
        matches!(self, Clock | StartAhead | StartBehind | FinishAhead | Eligible)
    }
}

/// What the bytes say.
#[derive(Clone, Debug)]
pub struct Reading {
    /// The clauses that they break: none, if the table is good.
    pub broken: Vec<Clause>,
    /// The contents, where words can be read as some at all.
    pub state: Option<State>,
}

impl Reading {
    /// The contents of a good table.
    pub fn good(self) -> Option<State> {
        self.state.filter(|_| self.broken.is_empty())
    }

    /// The same, to look at.
    pub fn as_good(&self) -> Option<&State> {
        self.state.as_ref().filter(|_| self.broken.is_empty())
    }

    pub fn breaks(&mut self, clause: Clause, when: bool) {
        if when && !self.broken.contains(&clause) {
            self.broken.push(clause);
        }
    }
}
