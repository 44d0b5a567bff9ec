//! The stand-in's records of one lane: one list by arrival, whatever trains there are. A shared lane chooses its next record by going round: each train that
//! it comes to gets its quantum, and is passed by if that does not cover its oldest record.

use super::slips::Slip;

/// A record as (train, mark, length).
pub type Entry = (u8, u32, u64);

#[derive(Default)]
pub struct Junction {
    pub shared: bool,
    /// What a visit adds.
    pub quantum: u64,
    slip: Option<Slip>,
    entries: Vec<Entry>,
    /// The trains with records, the one that is visited first.
    ring: Vec<u8>,
    credit: [u64; 16],
    /// The first of the ring has had its quantum.
    visited: bool,
}

impl Junction {
    pub fn new(shared: bool, longest: u64, framing: u64, slip: Slip) -> Junction {
        let quantum = match slip {
            Slip::TurnAddsFraming => longest + framing,
            Slip::TurnAddsFixed => 1_500,
            _ => longest,
        };
        Junction { shared, quantum, slip: Some(slip), ..Junction::default() }
    }

    fn slips(&self, slip: Slip) -> bool {
        self.slip == Some(slip)
    }

    pub fn len(&self) -> usize {
        self.entries.len()
    }

    pub fn is_empty(&self) -> bool {
        self.entries.is_empty()
    }

    /// Records of a train.
    pub fn count(&self, train: u8) -> usize {
        self.entries.iter().filter(|entry| entry.0 == train).count()
    }

    fn oldest(&self, train: u8) -> Option<usize> {
        self.entries.iter().position(|entry| entry.0 == train)
    }

    /// Where the next record stands.
    fn next(&self) -> usize {
        if !self.shared {
            return 0;
        }
        self.oldest(self.ring[0]).expect("a train of the ring has records")
    }

    pub fn first(&self) -> Entry {
        self.entries[self.next()]
    }

    pub fn push(&mut self, entry: Entry) {
        let starts = self.count(entry.0) == 0;
        self.entries.push(entry);
        if !self.shared || !starts {
            return;
        }
        if self.slips(Slip::StarterHasTurn) && !self.ring.is_empty() {
            self.credit[usize::from(entry.0)] += self.quantum;
        }
        if self.slips(Slip::StartsSecond) && !self.ring.is_empty() {
            self.ring.insert(1, entry.0);
        } else if self.slips(Slip::StartsFirst) && !self.ring.is_empty() {
            self.ring.insert(0, entry.0);
            self.visited = false;
        } else {
            self.ring.push(entry.0);
        }
        self.choose();
    }

    pub fn pop(&mut self, framing: u64) -> Entry {
        let entry = self.entries.remove(self.next());
        if !self.shared {
            return entry;
        }
        let credit = &mut self.credit[usize::from(entry.0)];
        let charged = if self.slip == Some(Slip::DeficitWithFraming) { entry.2 + framing } else { entry.2 };
        *credit = credit.saturating_sub(charged);
        if self.slip == Some(Slip::TurnLosesRest) && self.entries.iter().any(|other| other.0 == entry.0) {
            // What is left over goes once it does not cover the next record.
            let next = self.oldest(entry.0).map_or(0, |at| self.entries[at].2);
            let credit = &mut self.credit[usize::from(entry.0)];
            if *credit < next {
                *credit = 0;
            }
        }
        if self.oldest(entry.0).is_none() {
            if !self.slips(Slip::KeepsDeficit) {
                self.credit[usize::from(entry.0)] = 0;
            }
            self.ring.remove(0);
            self.visited = false;
        } else if self.slips(Slip::OneRecordATurn) {
            self.ring.rotate_left(1);
            self.visited = false;
        }
        self.choose();
        entry
    }

    /// Goes round until a train covers its oldest record.
    fn choose(&mut self) {
        while let Some(&train) = self.ring.first() {
            let credit = &mut self.credit[usize::from(train)];
            if !self.visited {
                *credit += self.quantum;
                self.visited = true;
            }
            let length =
                self.entries[self.entries.iter().position(|entry| entry.0 == train).expect("it waits")].2;
            let covers = match self.slip {
                Some(Slip::CoversStrictly) => *credit > length,
                _ => *credit >= length,
            };
            if covers {
                return;
            }
            self.ring.rotate_left(1);
            self.visited = false;
        }
    }
}
