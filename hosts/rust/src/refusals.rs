//! Every number that a call gives back in place of an answer: a constant, a case of [`RefusalKind`], what it means and what to mend.
//!
//! This is the one list. `hosts/check` holds `zf_text` of `include/zenfrosta.h` to it, and the tool's `explain` prints it.

macro_rules! refusals {
    ($($constant:ident $case:ident $number:literal $words:literal, $mend:literal;)*) => {
        /// What a refusal's number stands for.
        #[derive(Clone, Copy, Debug, PartialEq, Eq)]
        #[non_exhaustive]
        pub enum RefusalKind {
            $(#[doc = concat!(stringify!($number), ": ", $words, ".")] $case,)*
        }

        impl RefusalKind {
            /// All of them, by rising number.
            pub const ALL: &'static [RefusalKind] = &[$(RefusalKind::$case,)*];

            /// The number.
            pub const fn number(self) -> u64 {
                match self { $(RefusalKind::$case => $number,)* }
            }

            /// The case of a number; none for 0 and for numbers that no call gives.
            pub const fn of(number: u64) -> Option<RefusalKind> {
                match number { $($number => Some(RefusalKind::$case),)* _ => None }
            }

            /// The constant's name, which the header has with `ZF_` before it.
            pub const fn name(self) -> &'static str {
                match self { $(RefusalKind::$case => stringify!($constant),)* }
            }

            /// What is wrong, in words.
            pub const fn words(self) -> &'static str {
                match self { $(RefusalKind::$case => $words,)* }
            }

            /// What to mend.
            pub const fn mend(self) -> &'static str {
                match self { $(RefusalKind::$case => $mend,)* }
            }
        }

        $(#[doc = concat!($words, ".")] pub const $constant: u64 = $number;)*
    };
}

refusals! {
    CUT Cut 1 "the bytes end inside a field, or before the end field",
        "send the bytes again, whole; see that each length counts the bytes behind it";
    UNKNOWN_TAG UnknownTag 2 "a tag that is not known in this part",
        "take the field out, or move it to the part that it belongs to";
    WRONG_LENGTH WrongLength 3 "a length that is wrong for the tag",
        "write the length that this kind of field has, and just that many bytes behind it";
    OUT_OF_ORDER OutOfOrder 4 "a field out of its order, or a byte after the end",
        "begin with the format, then framing if there is any, then the lanes in rising order, each once, a shared lane's 12 right behind it, and end with 7F";
    WEIGHTS_OVER WeightsOver 6 "the weights sum to more than 1,024",
        "lower this weight or earlier ones until all of them together are at most 1,024";
    TABLE_SHORT TableShort 7 "the table is too short",
        "lend as many bytes as the size call says";
    NOT_GOOD NotGood 10 "the table is not good",
        "make the table again; something other than these calls wrote to it";
    NO_LANE NoLane 11 "the lane is not in the setup",
        "put to a lane of the setup, or add the lane to it";
    BAD_LENGTH BadLength 12 "a record's length is 0 or over the lane's longest",
        "send a shorter record, or raise the lane's longest in the setup";
    LANE_FULL LaneFull 13 "the lane is full",
        "take records first, and put again";
    STILL_HOLDS StillHolds 15 "records are held",
        "take all of them, then restart";
    NOTHING_HELD NothingHeld 16 "no record is held",
        "put a record first";
    RUN_BOUNDS RunBounds 17 "a run's limit is over 1,000, or its answer area is too short",
        "lower the limit, or lend 64 bytes for each line";
    INPUT_LONG InputLong 18 "the input is over 32,768 bytes",
        "cut the session into several";
    NOT_A_BOARD NotABoard 29 "the bytes are no board that these calls make",
        "stop using them, begin a new board, and let every train report";
    KIND_UNKNOWN KindUnknown 30 "the kind is neither 1 (joined) nor 2 (left)",
        "find out what sends the record; the board shows the train as it was";
    NO_FREE_LINE NoFreeLine 31 "a new train, and all 64 lines are used",
        "clear trains that have left; then give the record again";
    OUT_OF_TURN OutOfTurn 32 "the sequence is not the train's last one plus 1",
        "compare with the train; if it has left, clear it and take its next join as a first record";
    DOES_NOT_FOLLOW DoesNotFollow 33 "the cell or the kind does not follow the train's last record",
        "ask where the train is; if a record was lost, as for 32";
    NOT_CLEARED NotCleared 34 "the train is not on the board, or it has not left its cell",
        "nothing; a train that is joined cannot be cleared";
    BAD_FORMAT BadFormat 50 "the format is neither 1 nor 2",
        "write format 2, or format 1; they differ in what a longest that is left out means";
    BAD_LANE BadLane 51 "a lane number is over 63",
        "give the lane a number from 0 to 63";
    BAD_WEIGHT BadWeight 52 "a weight is not 1 to 1,024",
        "give the lane a weight from 1 to 1,024";
    BAD_LONGEST BadLongest 53 "a longest is not 64 to 1,500",
        "give the lane a longest from 64 to 1,500";
    BAD_FRAMING BadFraming 54 "a framing number is over 64",
        "write a framing number from 0 to 64, or leave it out, which means 0";
    PLAN_OUTSIDE PlanOutside 55 "the plan is outside the numbers",
        "mend the number that is outside; take a lane out by clearing all of it";
    SETUP_SHORT SetupShort 56 "the buffer is shorter than what is to be written",
        "lend 780 bytes, which every setup fits, or 698, which every sheet does";
    OLD_EDITION OldEdition 60 "the edition is not above the last one taken or waiting",
        "give the page an edition above both; edition 0 is above none";
    NO_TRAIN NoTrain 70 "the train is over 7, or over 0 in a lane that is not shared",
        "give a train from 0 to 7, or make the lane shared in the setup";
    TRAIN_FULL TrainFull 71 "the train's queue is full",
        "take records first, and put again; other trains of the lane may still have room";
    SHEET_BYTE SheetByte 80 "a byte that cannot stand there in a sheet",
        "look at that byte, and take it out or put the right one there; save the sheet without carriage returns";
    SHEET_CUT SheetCut 81 "the sheet is empty, or ends in a line",
        "add the last line feed, or send the sheet again, whole";
    NO_SHEET NoSheet 82 "the plan has framing bytes or a shared lane, which a sheet cannot say",
        "take the framing bytes out and let no lane be shared, or keep the plan as a setup";
    NOT_A_HALT NotAHalt 90 "the setup is good, and not the small halt's",
        "give the halt's own setup: lanes 0 to 3 of weights 512, 256, 128 and 128, longest 256, no framing bytes, none shared; or make the table by zf_make";
    BUFFER_SHORT BufferShort 255 "the answer buffer is too short",
        "lend 32 bytes";
}
