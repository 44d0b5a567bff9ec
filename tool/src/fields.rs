//! The fields of setups, sessions and journals: a tag of one byte, a length of two, a value; high byte first.

/// A whole field.
#[derive(Clone, Copy)]
pub struct Field<'a> {
    /// The place of its tag.
    pub at: usize,
    pub tag: u8,
    pub value: &'a [u8],
}

impl Field<'_> {
    /// The place behind it.
    pub fn end(&self) -> usize {
        self.at + 3 + self.value.len()
    }

    /// The number in `size` bytes of the value, which has them.
    pub fn number(&self, from: usize, size: usize) -> u64 {
        self.value[from..from + size].iter().fold(0, |sum, byte| sum << 8 | u64::from(*byte))
    }

    /// A field that ends a setup or a session.
    pub fn is_end(&self) -> bool {
        self.tag == 0x7F && self.value.is_empty()
    }
}

/// Goes over whole fields, and ends where the bytes end or a field is cut.
pub struct Fields<'a> {
    bytes: &'a [u8],
    at: usize,
}

impl<'a> Fields<'a> {
    pub fn new(bytes: &'a [u8]) -> Fields<'a> {
        Fields { bytes, at: 0 }
    }
}

impl<'a> Iterator for Fields<'a> {
    type Item = Field<'a>;

    fn next(&mut self) -> Option<Field<'a>> {
        let [tag, high, low] = *self.bytes.get(self.at..self.at + 3)? else { return None };
        let from = self.at + 3;
        let value = self.bytes.get(from..from + usize::from(u16::from_be_bytes([high, low])))?;
        let field = Field { at: self.at, tag, value };
        self.at = field.end();
        Some(field)
    }
}

/// The bytes of the setup at the start of a session: up to its end field, or all of them.
pub fn setup_of(session: &[u8]) -> &[u8] {
    let end = Fields::new(session).find(Field::is_end).map_or(session.len(), |field| field.end());
    &session[..end]
}
