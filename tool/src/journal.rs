//! A journal of handover records as it comes in: fields of 14 bytes, one behind the other, or lines of text.
//!
//! The tag 30 of a field is the digit 0 as text, and no line begins with a digit, so the first byte tells which it is.

use crate::fields::Fields;
use crate::text::digits;
use zenfrosta::{Handover, Kind};

/// One entry, and where it stands.
pub struct Entry {
    /// `3:1` for a line and column, `byte 28` for a field.
    pub place: String,
    pub what: Result<What, String>,
}

pub enum What {
    /// A field, to be given to the board as it is.
    Record(Vec<u8>),
    /// The desk clears a train.
    Clear(u32),
}

#[derive(Default)]
pub struct Journal {
    buffer: Vec<u8>,
    /// Whether it is fields or lines, once the first byte is there.
    fields: Option<bool>,
    /// Bytes, or lines, that are gone.
    gone: usize,
}

impl Journal {
    /// Takes bytes in; the entries that are whole now.
    pub fn feed(&mut self, bytes: &[u8]) -> Vec<Entry> {
        self.buffer.extend(bytes);
        let Some(first) = self.buffer.first() else { return Vec::new() };
        if *self.fields.get_or_insert(*first == 0x30) {
            self.whole_fields()
        } else {
            let Some(end) = self.buffer.iter().rposition(|byte| *byte == b'\n') else { return Vec::new() };
            let lines: Vec<u8> = self.buffer.drain(..=end).collect();
            lines[..end].split(|byte| *byte == b'\n').filter_map(|line| self.line(line)).collect()
        }
    }

    /// The journal ends here: what is left is a line with no line feed, or a field that is cut.
    pub fn finish(&mut self) -> Vec<Entry> {
        let left = std::mem::take(&mut self.buffer);
        match self.fields {
            _ if left.is_empty() => Vec::new(),
            Some(true) => vec![Entry { place: format!("byte {}", self.gone), what: Ok(What::Record(left)) }],
            _ => self.line(&left).into_iter().collect(),
        }
    }

    fn whole_fields(&mut self) -> Vec<Entry> {
        let mut end = 0;
        let mut entries = Vec::new();
        for field in Fields::new(&self.buffer) {
            let what = Ok(What::Record(self.buffer[field.at..field.end()].to_vec()));
            entries.push(Entry { place: format!("byte {}", self.gone + field.at), what });
            end = field.end();
        }
        self.buffer.drain(..end);
        self.gone += end;
        entries
    }

    fn line(&mut self, line: &[u8]) -> Option<Entry> {
        self.gone += 1;
        let text = String::from_utf8_lossy(line);
        let said = text.split('#').next().unwrap_or_default();
        let words: Vec<&str> = said.split_whitespace().collect();
        if words.is_empty() {
            return None;
        }
        let column = |word: &str| 1 + said[..word.as_ptr() as usize - said.as_ptr() as usize].chars().count();
        let mut at = column(words[0]);
        let what = match words.as_slice() {
            [kind @ ("join" | "leave"), train, cell, sequence] => {
                let kind = if *kind == "join" { Kind::Joined } else { Kind::Left };
                match (digits(train), digits(cell), digits(sequence)) {
                    (Some(train), Some(cell), Some(sequence)) => {
                        Ok(What::Record(Handover { train, cell, kind, sequence }.field().to_vec()))
                    }
                    (train_, cell_, _) => {
                        let (word, what, most) = match (train_, cell_) {
                            (None, _) => (train, "train", u32::MAX),
                            (_, None) => (cell, "cell", u32::from(u16::MAX)),
                            _ => (sequence, "sequence", u32::MAX),
                        };
                        at = column(word);
                        Err(format!("the {what} is '{word}', and not a number from 0 to {most}"))
                    }
                }
            }
            ["clear", train] => digits(train).map(What::Clear).ok_or_else(|| {
                at = column(train);
                format!("the train is '{train}', and not a number from 0 to {}", u32::MAX)
            }),
            _ => Err("no line of a journal: 'join TRAIN CELL SEQUENCE', 'leave TRAIN CELL SEQUENCE' or 'clear TRAIN'".to_string()),
        };
        Some(Entry { place: format!("{}:{at}", self.gone), what })
    }
}
