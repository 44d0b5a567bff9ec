//! Lent bytes: a table at any address, longer than the fixed size now and then, holding anything at first.

use crate::rng::Rng;

pub struct Lent {
    bytes: Vec<u8>,
    from: usize,
    to: usize,
    /// Bytes of the lent part that the unit may write.
    size: usize,
    /// The bytes before and after those, as they must stay.
    guards: (Vec<u8>, Vec<u8>),
    /// The table as it was kept last, and whether it still is that.
    kept: Vec<u8>,
    current: bool,
}

impl Lent {
    /// `size` bytes that may be written and up to 40 more that are lent too.
    pub fn new(rng: &mut Rng, size: usize) -> Lent {
        let from = rng.index(24);
        let to = from + size + rng.pick(&[0, 0, 1, 7, 8, 40]);
        let after = to + rng.index(24);
        let mut bytes = match rng.below(3) {
            0 => vec![0; after],
            1 => vec![0xFF; after],
            _ => rng.noise(after),
        };
        // The guards are random, so that no constant can be written over them unseen.
        for at in (0..from).chain(from + size..after) {
            bytes[at] = rng.byte();
        }
        let guards = (bytes[..from].to_vec(), bytes[from + size..].to_vec());
        Lent { bytes, from, to, size, guards, kept: vec![], current: false }
    }

    /// The part that may be written, to read it.
    pub fn table(&self) -> &[u8] {
        &self.bytes[self.from..self.from + self.size]
    }

    /// Keeps the table as it is before a call that must not write it; without a copy, if it is known to be what was kept.
    pub fn keep(&mut self) {
        if !self.current {
            self.kept.clear();
            self.kept.extend_from_slice(&self.bytes[self.from..self.from + self.size]);
            self.current = true;
        }
    }

    /// The table was written by a call that may. One that this is not said of is told as a difference at the next `as_kept`.
    pub fn wrote(&mut self) {
        self.current = false;
    }

    /// No byte of the table is another than it was kept.
    pub fn as_kept(&self) -> bool {
        self.current && self.table() == self.kept
    }

    /// The lent part.
    pub fn bytes(&mut self) -> &mut [u8] {
        &mut self.bytes[self.from..self.to]
    }

    /// The lent part cut short.
    pub fn short(&mut self, length: usize) -> &mut [u8] {
        &mut self.bytes[self.from..self.from + length]
    }

    pub fn copy(&self) -> Vec<u8> {
        self.table().to_vec()
    }

    pub fn same(&self, copy: &[u8]) -> bool {
        self.table() == copy
    }

    pub fn guarded(&self) -> Result<(), String> {
        let before = &self.bytes[..self.from];
        let after = &self.bytes[self.from + self.size..];
        if before != self.guards.0 || after != self.guards.1 {
            return Err("bytes outside the table's fixed size were written".to_string());
        }
        Ok(())
    }

    /// The same table at another address.
    pub fn moved(&self, rng: &mut Rng) -> Lent {
        let mut other = Lent::new(rng, self.size);
        other.bytes()[..self.size].copy_from_slice(self.table());
        other
    }
}
