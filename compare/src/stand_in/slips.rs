//! The slips that a stand-in can be told to make: those that come to mind first, and more of their kind. The
//! comparison is worth something only if it finds every one.

macro_rules! slips {
    ($($(#[$meaning:meta])* $name:ident,)*) => {
        #[derive(Clone, Copy, Debug, PartialEq, Eq)]
        pub enum Slip {
            /// None: the stand-in follows the rules.
            None,
            $($(#[$meaning])* $name,)*
        }

        pub const ALL: &[Slip] = &[$(Slip::$name,)*];
    };
}

slips! {
    // Those that come to mind first.
    /// By F itself, not by the rounded finish.
    ExactFinish,
    /// Rounding c down.
    CostRoundedDown,
    /// V counts for the new S of a lane that holds, too.
    HoldingLaneTakesClock,
    /// An equal finish blocks, which sends ties to the higher group.
    EqualFinishBlocks,
    /// V moves to the least R while the served lane has its old S.
    ClockBeforeNewStart,
    /// V moves to the least R of the other lanes.
    ClockWithoutServedLane,

    // The plain rules.
    /// Ties inside a group go to the lane that got its S last.
    TiesToLaterLane,
    /// Ties inside a group go to the lowest lane number.
    TiesToLowestLane,
    /// A put on a lane that holds records counts as getting a new S.
    PutRenewsTurn,
    /// A lane whose R stays the same keeps its turn in ties.
    SameRoundKeepsTurn,
    /// An idle lane forgets its F.
    ForgetsFinish,
    /// Put to an empty table does not move V to R.
    NoJumpOnPut,
    /// Put moves V to S in place of R.
    JumpToExactStart,
    /// Eligible only when R is below V.
    EligibleBelowClock,
    /// V grows by 1,024 times the lane's longest.
    ChargesLongest,
    /// 2^i above longest times c, in place of at least.
    GroupTooHigh,
    /// Lag of an idle lane is V minus F.
    LagOfIdleFromFinish,
    /// Restart keeps the clock.
    RestartKeepsClock,
    /// Restart is accepted while records are held.
    RestartDropsRecords,
    /// A lane has room for 16, as it had.
    RoomForSixteen,
    /// A lane has room for 63.
    RoomForSixtyThree,
    /// A lane has room for 65.
    RoomForSixtyFive,
    /// A put's length is cut to 16 bits.
    LengthCut,

    // A clock that is taken back.
    /// A put at 2^61 or more gives 14.
    FarIsRefused,
    /// By a multiple of 2^30.
    BackByHalfUnits,
    /// V alone goes back.
    BackOfClockAlone,
    /// The F of idle lanes stays.
    BackLeavesIdleLanes,
    /// An idle lane's F that is below what is taken off stays.
    BackKeepsLowFinish,
    /// Every idle lane's F becomes 0.
    BackForgetsFinish,
    /// S goes back, and the F of a lane that holds records stays.
    BackLeavesFinish,

    // A put's answer.
    /// The record itself is counted among those ahead of it.
    CountsItself,
    /// The records of all lanes are counted.
    CountsAllLanes,
    /// 1 for any number above 0.
    TellsOnlyWhetherIdle,
    /// The session's line has no number.
    LineWithoutNumber,

    // Trains.
    /// A train that empties keeps its deficit.
    KeepsDeficit,
    /// A train whose rest does not cover its next record loses it.
    TurnLosesRest,
    /// A turn adds the longest and the framing bytes.
    TurnAddsFraming,
    /// A turn adds 1,500.
    TurnAddsFixed,
    /// A deficit drops by what the line charges.
    DeficitWithFraming,
    /// Trains take turns record by record.
    OneRecordATurn,
    /// A deficit that is just the record's length does not cover it.
    CoversStrictly,
    /// A train that starts goes right behind the one in turn.
    StartsSecond,
    /// A train that starts goes before the one in turn.
    StartsFirst,
    /// A train that starts has the longest at once.
    StarterHasTurn,
    /// Train 7 is refused.
    SevenTrains,
    /// Train 8 is taken.
    NineTrains,
    /// In a lane that is not shared any train is taken for train 0.
    TrainNotAsked,
    /// 70 is told before 11.
    TrainBeforeLane,
    /// 12 is told before 70.
    LengthBeforeTrain,
    /// A train has room for seven.
    TrainRoomSeven,
    /// A train has room for nine.
    TrainRoomNine,
    /// 71 only where the lane holds 64.
    TrainsShareRoom,
    /// 13 in place of 71.
    FullAsThirteen,
    /// A put in a shared lane tells the lane's number.
    CountsAllTrains,
    /// A take does not tell the train.
    TrainNotTold,
    /// Restart makes every lane one that is not shared.
    RestartForgetsShared,
    /// 0x12 changes nothing.
    SharedForgotten,
    /// 0x12 of another lane's number is taken.
    SharedOfAnyLane,
    /// 0x12 of another lane's number gives 51.
    SharedWrongAsLane,
    /// 0x12 is taken twice.
    SharedTwice,
    /// 0x26 has its train behind the mark.
    TrainBehindMark,
    /// A shared lane's line does not end with the train,
    LineWithoutTrain,
    /// or not with train 0;
    LineWithoutTrainZero,
    /// or every line does.
    LineWithTrainAlways,

    // Framing.
    /// V grows by the bare length.
    FramingNotInClock,
    /// F grows by the bare length.
    FramingNotInFinish,
    /// The group goes by the bare longest.
    FramingNotInGroup,
    /// 12 compares the charged length.
    FramingInPut,
    /// A take's or a look's answer has the charged length.
    FramingInAnswer,
    /// Restart forgets the framing number.
    RestartDropsFraming,
    /// A framing field is taken behind lane fields.
    FramingAfterLanes,
    /// A framing field is taken behind another one.
    FramingTwice,
    /// A framing number of 65 is taken.
    FramingOf65,
    /// 54 is told before 4.
    FramingValueBeforeOrder,
    /// A framing field among the requests gives 4 in place of 2.
    FramingOutOfOrderInRequests,

    // Settings pages.
    /// A page is in force while a record is held, and is said to wait.
    PageAtOnce,
    /// A page waits with nothing held.
    PageWaitsIdle,
    /// The take that hands out the last record leaves a page waiting,
    PageWaitsOn,
    /// or the next put brings it.
    PageComesWithPut,
    /// Restart forgets the edition.
    RestartForgetsEdition,
    /// A page that comes into force does not change the edition last taken.
    EditionNotTaken,
    /// An edition equal to the last one is taken,
    EqualEditionTaken,
    /// or edition 0 before any.
    EditionZeroTaken,
    /// 60 goes by the edition last taken alone,
    WaitingEditionUnread,
    /// or by the one that waits alone.
    LastEditionUnread,
    /// Editions from 32,768 on count as below 0.
    EditionSigned,
    /// 60 is told before what is wrong with the page.
    EditionBeforePage,
    /// A page offered while one waits does not take its place.
    FirstPageStays,
    /// A refused page drops the one that waits,
    RefusedPageDrops,
    /// or writes the table.
    RefusedOfferWrites,
    /// At a change of setup the clock goes on,
    ChangeKeepsClock,
    /// the page's framing number is forgotten,
    ChangeDropsFraming,
    /// or lanes of the old setup stay beside those of the page.
    ChangeKeepsLanes,

    // Refusals and lent bytes.
    /// 12 is told before 11.
    LengthBeforeLane,
    /// 13 is told before 12.
    FullBeforeLength,
    /// A refused put writes the table.
    RefusalWrites,
    /// A look writes the table.
    LookWrites,
    /// A byte past the fixed size is written.
    WritesPastTable,
    /// A refused making has already written the table.
    MakeWritesEarly,

    // Setups.
    /// A fault's place is the byte after its tag.
    PlaceOffByOne,
    /// An input cut in a value is told by 1 before its length by 3.
    CutBeforeLength,
    /// 50 to 54 are told before 4.
    ValueBeforeOrder,
    /// 6 is told before 51 to 53.
    WeightsBeforeValue,
    /// 6 is told before 53: the first byte of all.
    WeightsBeforeLongest,
    /// 53 is told before 51 and 52.
    LongestFirst,
    /// 52 is told before 51.
    WeightBeforeLane,
    /// 5 in place of 50 to 54.
    ValueToldAsFive,
    /// 50 to 54 are told at the tag.
    ValueAtTag,
    /// 50 to 54 are told at the low byte where that one alone is wrong.
    ValueAtLowByte,
    /// 6 is told at the tag.
    WeightsAtTag,
    /// Only the low byte of a field's length is read.
    LowLengthByteOnly,
    /// 1,024 in sum is too much already.
    SumTooSmall,
    /// An equal lane number counts as rising.
    EqualLaneRises,
    /// A lane field of length 3 means a longest of 1,499.
    WrongDefault,
    /// A longest that is left out means 1,500 in format 2, too.
    DefaultsAlike,
    /// Format 2 is refused.
    SecondFormatRefused,
    /// Only the format's low byte is looked at.
    FormatLowByteOnly,
    /// A byte after the setup is let pass.
    TrailingByteTaken,

    // Sessions.
    /// The limit is looked at after the field.
    LimitAfterField,
    /// The limit is not looked at before the end field.
    LimitAfterEnd,
    /// A `no` line is not counted.
    NoLineNotCounted,
    /// A refused field is counted.
    RefusedFieldCounted,
    /// Places are counted from the first request.
    PlaceFromRequests,
    /// A lane over 63 in a request is refused as a field, by 51.
    RequestLaneJudged,
    /// A byte after the end field is let pass.
    TrailingByteAfterEnd,
    /// A line without its line feed.
    LineFeedMissing,
    /// A lag below zero is written without its sign.
    SignLost,
    /// 7 is told before 17.
    TableBeforeArea,
    /// 17 only below 64 times (limit + 1) bytes.
    AreaTooSmall,
    /// A byte past the last line is written.
    WritesPastLine,
    /// A run that is refused at a request loses what the answered ones made.
    RunForgets,
}
