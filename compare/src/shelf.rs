//! A table for units that keep their contents outside the lent bytes. The lent bytes hold a signature that changes
//! with every change of the contents, so that the comparison can test what calls may and may not write.

pub const TABLE_SIZE: usize = 48;

pub struct Shelf<T> {
    contents: Option<T>,
    signature: u64,
}

impl<T> Default for Shelf<T> {
    fn default() -> Shelf<T> {
        Shelf { contents: None, signature: 0 }
    }
}

impl<T> Shelf<T> {
    fn bytes(&self) -> [u8; TABLE_SIZE] {
        let mut bytes = [0x5A; TABLE_SIZE];
        bytes[..8].copy_from_slice(&self.signature.to_le_bytes());
        bytes
    }

    /// The contents, if these bytes are the table that the shelf keeps.
    pub fn open(&mut self, table: &[u8]) -> Option<&mut T> {
        if table.get(..TABLE_SIZE)? != self.bytes() {
            return None;
        }
        self.contents.as_mut()
    }

    /// The contents have changed.
    pub fn sign(&mut self, table: &mut [u8]) {
        self.signature += 1;
        table[..TABLE_SIZE].copy_from_slice(&self.bytes());
    }

    pub fn put(&mut self, contents: T, table: &mut [u8]) {
        self.contents = Some(contents);
        self.sign(table);
    }
}
