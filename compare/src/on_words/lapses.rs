//! The lapses that a unit on words can be told to make.

use crate::layout::{Clause, CLAUSES};

#[derive(Clone, Copy, Debug, PartialEq, Eq)]
pub enum Lapse {
    None,
    /// A clause of the good table (R6) is not tested: a table that breaks it alone does not give 10.
    Untested(Clause),
    /// A table that gives 10 is written.
    RefusalWrites,
    /// V must be below 2^62 + 2^44 - 1.
    ClockStrict,
    /// V must be below 2^62 + 2^42, as with room for 16.
    ClockOld,
    /// S must be below V + 2s - 1.
    StartStrict,
    /// R must be above V - 2s - 1,024 (1,500 + h) + 1.
    BehindStrict,
    /// R must be above V - 2s - 1,536,000, whatever h is.
    BehindBare,
    /// h must be below 64.
    FramingStrict,
    /// F of an idle lane must be below V + 2s - 1.
    FinishStrict,
    /// An eligible lane must have R below V.
    EligibleStrict,
    /// Sixty-four records are too many.
    RecordsStrict,
    /// A word that means nothing must be 0.
    FreeWordRead,
    /// So must the bytes behind the page's part.
    KeptRead,
    /// The places of an idle lane must hold lengths within its numbers too.
    IdlePlacesRead,
    /// A put to an idle lane leaves the lengths of the other places as they are.
    PlacesLeft,
    /// The edition last taken must be below 65,535.
    LastStrict,
    /// A waiting page's edition must be above the last one and one more.
    AboveStrict,
    /// The page's words must be a plan where no page waits, too.
    IdlePlanRead,
    /// A waiting page must be of format 2.
    PageFormatRead,
    /// A restart writes edition 0.
    RestartForgetsEdition,
    /// A page that waits is stored without its framing number,
    PageFramingLost,
    /// or without its shared lanes.
    PageSharedLost,
    /// A page that came into force is still there as one that waits.
    PageNotCleared,
    /// A refused offer leaves its edition.
    RefusedOfferStays,
    /// A page's edition is shown as the last one taken while it waits.
    WaitingShownAsLast,
    /// The train in turn must have more than its first record's length.
    TurnStrict,
    /// Its deficit must be below twice the longest less 1.
    TurnBelowStrict,
    /// Any other train's deficit must be below its first record's length less 1.
    OthersStrict,
    /// Eight records of a train are too many.
    TrainRecordsStrict,
    /// A train without a record must have the number 0.
    EmptyTrainRead,
    /// So must the trains of an idle shared lane,
    IdleTrainsRead,
    /// and those of a lane that is not shared.
    PlainTrainsRead,
    /// A shared lane's first place must be 0.
    SharedRingRead,
    /// The row of a shared lane is not kept.
    RowNotKept,
    /// The deficit drops when a record is chosen.
    DeficitAtChoice,
    /// A hand-out leaves the round where it was.
    RoundKept,
    /// A lane's setting does not tell that it is shared.
    SharedNotShown,
    /// A shared lane's backlog is train 0's.
    OneTrainCounted,
    /// A train's records are shown as train 0's.
    TrainShownAsLane,
    /// A lane's backlog is shown of a table that is not good, too.
    BacklogUntested,
    /// A place behind the last record is shown as the last one.
    PlaceShownAsLast,
    /// A call that shows a table writes it.
    ShowWrites,
    /// A worst wait counts the records ahead without their framing.
    WaitByBareRecords,
    /// A put forgets the tie order: the lanes of a list stand by their number.
    OrderLost,
    /// A group's start may be off by a multiple of 32 slots, which is the same list.
    StartModulo,
    /// Of the lanes in the lists only the sum of their bits is tested, wherever they stand: a lane twice may count as its neighbour.
    ListsAdded,
    /// A record is written one place too far in its ring.
    RingTurned,
    /// A take leaves the clock where it was, if it is the last one.
    ClockKept,
    /// A put at 2^62 or more gives 14, as it did.
    SpentAsBefore,
    /// The clock is taken back from 2^61 + 1 on.
    BackStrict,
    /// From 2^62 on.
    BackLate,
    /// Only by a put to an idle lane.
    BackByIdleAlone,
    /// By a refused put, too.
    BackByRefused,
    /// By a take, too.
    BackByTake,
    /// By a multiple of 2^30.
    BackByHalfUnits,
    /// By the largest multiple of 2^31 not above V - 2^32.
    BackTooFar,
    /// The multiple that is above V - 2^33 where V is none itself.
    BackRoundedUp,
    /// V alone goes back.
    BackOfClockAlone,
    /// The lane with the lowest number is left out.
    BackLeavesFirstLane,
    /// An idle lane's F below what is taken off stays.
    BackKeepsLowFinish,
    /// Every idle lane's F becomes 0.
    BackForgetsFinish,
    /// The groups' starts stay.
    BackLeavesStarts,
    /// What was taken off is not remembered, and the lists stay.
    BackForgotten,
    /// B is not taken modulo 2^36.
    BackGrows,
}

/// Every lapse.
pub fn lapses() -> Vec<Lapse> {
    use Lapse::*;
    let others = [
        RefusalWrites,
        ClockStrict,
        ClockOld,
        StartStrict,
        BehindStrict,
        BehindBare,
        FramingStrict,
        FinishStrict,
        EligibleStrict,
        RecordsStrict,
        FreeWordRead,
        KeptRead,
        IdlePlacesRead,
        PlacesLeft,
        LastStrict,
        AboveStrict,
        IdlePlanRead,
        PageFormatRead,
        RestartForgetsEdition,
        PageFramingLost,
        PageSharedLost,
        PageNotCleared,
        RefusedOfferStays,
        WaitingShownAsLast,
        TurnStrict,
        TurnBelowStrict,
        OthersStrict,
        TrainRecordsStrict,
        EmptyTrainRead,
        IdleTrainsRead,
        PlainTrainsRead,
        SharedRingRead,
        RowNotKept,
        DeficitAtChoice,
        RoundKept,
        SharedNotShown,
        OneTrainCounted,
        TrainShownAsLane,
        BacklogUntested,
        PlaceShownAsLast,
        ShowWrites,
        WaitByBareRecords,
        OrderLost,
        StartModulo,
        ListsAdded,
        RingTurned,
        ClockKept,
        SpentAsBefore,
        BackStrict,
        BackLate,
        BackByIdleAlone,
        BackByRefused,
        BackByTake,
        BackByHalfUnits,
        BackTooFar,
        BackRoundedUp,
        BackOfClockAlone,
        BackLeavesFirstLane,
        BackKeepsLowFinish,
        BackForgetsFinish,
        BackLeavesStarts,
        BackForgotten,
        BackGrows,
    ];
    CLAUSES.iter().map(|clause| Untested(*clause)).chain(others).collect()
}
