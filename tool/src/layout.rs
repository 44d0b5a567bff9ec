//! Where the numbers of a lent table lie: docs/TABLE.md, and nothing else. What a table holds is for the library's calls to show; only [`unfit`](crate::unfit)
//! reads one by its places, to say what is wrong with a table that they refuse. A place is the first byte of its number.

/// The depth number: a lane's room.
pub const ROOM: u64 = 64;
/// A lane's room in the tables before these, which had no depth number, no shared lanes and no page's part. All else lay where it lies, but for the
/// records.
const OLD_ROOM: u64 = 16;
pub const TRAINS: u8 = 8;
/// The places of a train in a shared lane.
pub const TRAIN_ROOM: u64 = 8;
/// The lists of a group, and the places of a list's ring.
pub const LISTS: u32 = 32;
const RING: usize = 64;
pub const GROUPS: std::ops::RangeInclusive<u32> = 16..=31;

pub const CLOCK: usize = 0;
pub const PRESENT: usize = 8;
pub const DEPTH: usize = 24;
pub const FRAMING: usize = 32;
/// The groups that have lanes, and B.
pub const MARKED: usize = 10_880;
pub const BACK: usize = 10_888;
/// The page's part.
pub const LAST_EDITION: usize = 63_488;
pub const NEW_EDITION: usize = LAST_EDITION + 8;
pub const PAGE_PLAN: usize = LAST_EDITION + 16;

/// Whether c and the group of an idle lane mean something.
pub const IDLE_HAS_PACE: bool = false;

/// A lane's row: its setting, its clock word, its ring, and what the fourth word has.
pub fn setting(lane: u8) -> usize {
    640 + 32 * usize::from(lane)
}

pub fn time(lane: u8) -> usize {
    setting(lane) + 8
}

pub fn ring(lane: u8) -> usize {
    setting(lane) + 16
}

/// Where c and the group of a lane are.
pub fn pace(lane: u8) -> usize {
    setting(lane)
}

/// The round of a shared lane.
pub fn round(lane: u8) -> usize {
    setting(lane) + 24
}

/// The lengths of a lane's places: each less one and in 16 bits; in the tables before these in the upper half of a word of its own, as it is.
pub fn lengths(lane: u8) -> usize {
    2_688 + 128 * usize::from(lane)
}

pub fn train(lane: u8, train: u8) -> usize {
    61_440 + 32 * usize::from(lane) + 4 * usize::from(train)
}

pub fn start(group: u32) -> usize {
    10_880 + 8 * group as usize
}

/// The lists of a group that have lanes.
pub fn lists(group: u32) -> usize {
    11_008 + 8 * group as usize
}

fn ring_of(group: u32, list: u32) -> usize {
    (LISTS * (group - GROUPS.start()) + list) as usize
}

/// How many lanes stand in a list.
pub fn standing(group: u32, list: u32) -> usize {
    11_776 + ring_of(group, list)
}

/// A table's bytes, all of them, and whether it is one of those before.
pub struct Table<'a> {
    pub bytes: &'a [u8],
    pub old: bool,
}

/// The numbers of a lane's row.
pub struct Row {
    pub longest: u64,
    pub weight: u64,
    pub shared: bool,
    pub c: u64,
    pub group: u64,
    /// S while the lane holds records, F while it is idle.
    pub time: u64,
    pub held: u64,
}

/// The numbers of a train in a shared lane that holds records.
pub struct Train {
    pub first: u64,
    pub held: u64,
    pub deficit: u64,
}

impl Table<'_> {
    pub fn word(&self, at: usize) -> u64 {
        u64::from_le_bytes(self.bytes[at..at + 8].try_into().expect("eight bytes"))
    }

    /// The lanes of the setup.
    pub fn present(&self) -> Vec<u8> {
        bits(self.word(PRESENT)).map(|bit| bit as u8).collect()
    }

    pub fn room(&self) -> u64 {
        if self.old {
            OLD_ROOM
        } else {
            ROOM
        }
    }

    pub fn row(&self, lane: u8) -> Row {
        let setting = self.word(setting(lane));
        let pace = if self.old { setting } else { self.word(pace(lane)) };
        Row {
            longest: setting & 0xFFFF,
            weight: setting >> 16 & 0xFFFF,
            shared: !self.old && setting >> 63 == 1,
            c: pace >> 40 & if self.old { 0xFF_FFFF } else { 0x7F_FFFF },
            group: pace >> 32 & 0xFF,
            time: self.word(time(lane)),
            held: self.word(ring(lane)) / self.room(),
        }
    }

    /// The places of a lane that holds records at which a length must fit: every one; in the tables before these, those with a record.
    pub fn places(&self, lane: u8) -> Vec<u64> {
        let (first, held) = (self.word(ring(lane)) % self.room(), self.row(lane).held);
        match self.old {
            true => (0..held.min(OLD_ROOM)).map(|place| (first + place) % OLD_ROOM).collect(),
            false => (0..ROOM).collect(),
        }
    }

    /// Where a place's length is.
    pub fn length_at(&self, lane: u8, place: u64) -> usize {
        match self.old {
            true => lengths(lane) + 8 * place as usize + 4,
            false => lengths(lane) + 2 * place as usize,
        }
    }

    pub fn length(&self, lane: u8, place: u64) -> u64 {
        let at = self.length_at(lane, place);
        match self.old {
            true => self.half(at),
            false => u64::from(u16::from_le_bytes([self.bytes[at], self.bytes[at + 1]])) + 1,
        }
    }

    /// A number of 32 bits.
    fn half(&self, at: usize) -> u64 {
        u64::from(u32::from_le_bytes(self.bytes[at..at + 4].try_into().expect("four bytes")))
    }

    pub fn train(&self, lane: u8, number: u8) -> Train {
        let word = self.half(train(lane, number));
        Train { first: word % 8, held: word / 8 % 16, deficit: word / 128 }
    }

    /// The length of a train's first record, or of what stands at its place.
    pub fn first_length(&self, lane: u8, number: u8) -> u64 {
        self.length(lane, TRAIN_ROOM * u64::from(number) + self.train(lane, number).first)
    }

    /// How many trains a lane's round counts, and the eight numbers that it has room for.
    pub fn round(&self, lane: u8) -> (u64, Vec<u8>) {
        let word = self.word(round(lane));
        (word >> 32, (0..8).map(|i| (word >> (4 * i) & 15) as u8).collect())
    }

    /// The lanes that stand in a list, the first first.
    pub fn list(&self, group: u32, list: u32) -> Vec<u8> {
        let i = ring_of(group, list);
        let first = usize::from(self.bytes[11_264 + i]);
        let count = usize::from(self.bytes[standing(group, list)]);
        (0..count).map(|place| self.bytes[12_288 + RING * i + (first + place) % RING]).collect()
    }
}

/// The bits of a word that are 1.
pub fn bits(word: u64) -> impl Iterator<Item = u32> {
    (0..64).filter(move |bit| word >> bit & 1 == 1)
}
