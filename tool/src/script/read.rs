//! A session's text read: the bytes that it says.

use super::Part;
use crate::fault::{Fault, Spot};
use crate::files::Input;
use crate::text::digits;

/// The format of a text that names none.
const FORMAT: u16 = zenfrosta::Plan::FORMAT;

/// A session's bytes, and where in the text each of them was said.
#[derive(Debug, Default)]
pub struct Script {
    pub bytes: Vec<u8>,
    spots: Vec<(usize, Spot)>,
}

impl Script {
    /// Where the text says the byte at this place; the spot of the text's end for the end of the bytes.
    pub fn spot(&self, place: usize) -> Option<Spot> {
        self.spots.iter().rev().find(|(at, _)| *at <= place).map(|(_, spot)| *spot)
    }
}

/// One line's words, each with its column.
struct Line<'a> {
    input: &'a Input,
    number: usize,
    words: Vec<(usize, &'a str)>,
    width: usize,
}

/// What a line may say, and the names of its numbers.
const LINES: &[(&str, &str)] = &[
    ("format", "F"),
    ("framing", "H"),
    ("lane", "LANE WEIGHT [LONGEST]"),
    ("shared", "LANE"),
    ("requests", ""),
    ("put", "LANE [TRAIN] MARK LENGTH"),
    ("take", ""),
    ("look", ""),
    ("sets", ""),
    ("lag", "LANE"),
    ("restart", ""),
    ("end", ""),
    ("cut", ""),
    ("bytes", "HEX .."),
];

impl Line<'_> {
    fn spot(&self, word: usize) -> Spot {
        let column = self.words.get(word).map_or(self.width + 1, |(column, _)| *column);
        Spot { line: self.number, column }
    }

    fn fault(&self, word: usize, says: impl Into<String>) -> Fault {
        Fault::Text { name: self.input.name.clone(), spot: self.spot(word), says: says.into() }
    }

    /// The number of a word, high byte first in `size` bytes.
    fn number(&self, word: usize, what: &str, size: usize) -> Result<Vec<u8>, Fault> {
        let most = u64::MAX >> (64 - 8 * size);
        let Some((_, text)) = self.words.get(word) else {
            return Err(self.fault(word, format!("{what} is missing")));
        };
        let number = match text.strip_prefix("0x") {
            Some(hex) if hex.bytes().all(|digit| digit.is_ascii_hexdigit()) => {
                u64::from_str_radix(hex, 16).ok()
            }
            Some(_) => None,
            None => digits(text),
        };
        match number {
            Some(number) if number <= most => Ok(number.to_be_bytes()[8 - size..].to_vec()),
            Some(_) => {
                Err(self.fault(word, format!("{what} {text} does not fit its field: {most} is the most")))
            }
            None => Err(self.fault(word, format!("{what} is '{text}', and not a number"))),
        }
    }

    /// The line has this many words.
    fn words(&self, least: usize, most: usize) -> Result<(), Fault> {
        let form = LINES.iter().find(|(name, _)| *name == self.words[0].1).map_or("", |(_, form)| form);
        let form = format!("{} {form}", self.words[0].1);
        if self.words.len() < least {
            return Err(self.fault(self.words.len(), format!("a number is missing: '{}'", form.trim_end())));
        }
        if self.words.len() > most {
            return Err(self.fault(most, format!("one word too many: '{}'", form.trim_end())));
        }
        Ok(())
    }
}

struct Writer {
    script: Script,
    part: Part,
}

impl Writer {
    fn mark(&mut self, spot: Spot) {
        self.script.spots.push((self.script.bytes.len(), spot));
    }

    /// A field whose values are said by the line's words from the second on.
    fn field(&mut self, line: &Line<'_>, tag: u8, values: &[Vec<u8>]) {
        self.mark(line.spot(0));
        let length: usize = values.iter().map(Vec::len).sum();
        self.script.bytes.extend([tag, 0, length as u8]);
        for (i, value) in values.iter().enumerate() {
            self.mark(line.spot(i + 1));
            self.script.bytes.extend(value);
        }
    }

    fn end_field(&mut self, spot: Spot) {
        self.mark(spot);
        self.script.bytes.extend([0x7F, 0, 0]);
    }

    /// Begins the setup, with a format where the text has none.
    fn setup(&mut self, spot: Spot, formatted: bool) {
        if self.part == Part::Nothing {
            self.part = Part::Setup;
            if !formatted {
                self.mark(spot);
                self.script.bytes.extend([0x01, 0, 2, 0, FORMAT as u8]);
            }
        }
    }

    /// Closes the setup, if it is open.
    fn requests(&mut self, spot: Spot) {
        self.setup(spot, false);
        if self.part == Part::Setup {
            self.end_field(spot);
            self.part = Part::Requests;
        }
    }

    fn line(&mut self, line: &Line<'_>) -> Result<(), Fault> {
        let spot = line.spot(0);
        let name = line.words[0].1;
        if self.part == Part::Closed && name != "bytes" {
            return Err(line.fault(0, format!("'{name}' behind the session's end")));
        }
        match name {
            "format" | "framing" | "lane" | "shared" => {
                if self.part == Part::Requests {
                    return Err(
                        line.fault(0, format!("'{name}' belongs to the setup, before the first request"))
                    );
                }
                self.setup(spot, name == "format");
                match name {
                    "format" => {
                        line.words(2, 2)?;
                        self.field(line, 0x01, &[line.number(1, "the format", 2)?]);
                    }
                    "framing" => {
                        line.words(2, 2)?;
                        self.field(line, 0x11, &[line.number(1, "the framing number", 1)?]);
                    }
                    "shared" => {
                        line.words(2, 2)?;
                        self.field(line, 0x12, &[line.number(1, "the lane", 1)?]);
                    }
                    _ => {
                        line.words(3, 4)?;
                        let mut values =
                            vec![line.number(1, "the lane", 1)?, line.number(2, "the weight", 2)?];
                        if line.words.len() == 4 {
                            values.push(line.number(3, "the longest", 2)?);
                        }
                        self.field(line, 0x10, &values);
                    }
                }
            }
            "put" | "take" | "look" | "sets" | "lag" | "restart" => {
                self.requests(spot);
                match name {
                    "put" => {
                        line.words(4, 5)?;
                        // With a train it has a number more, and is another field.
                        let train = line.words.len() == 5;
                        let mut values = vec![line.number(1, "the lane", 1)?];
                        if train {
                            values.push(line.number(2, "the train", 1)?);
                        }
                        let at = values.len() + 1;
                        values.push(line.number(at, "the mark", 4)?);
                        values.push(line.number(at + 1, "the length", 2)?);
                        self.field(line, if train { 0x26 } else { 0x20 }, &values);
                    }
                    "lag" => {
                        line.words(2, 2)?;
                        self.field(line, 0x24, &[line.number(1, "the lane", 1)?]);
                    }
                    _ => {
                        line.words(1, 1)?;
                        let tag = match name {
                            "take" => 0x21,
                            "look" => 0x22,
                            "sets" => 0x23,
                            _ => 0x25,
                        };
                        self.field(line, tag, &[]);
                    }
                }
            }
            "requests" => {
                line.words(1, 1)?;
                if self.part == Part::Requests {
                    return Err(line.fault(0, "the setup is closed already"));
                }
                self.requests(spot);
            }
            "end" => {
                line.words(1, 1)?;
                self.end(spot);
            }
            "cut" => {
                line.words(1, 1)?;
                self.part = Part::Closed;
            }
            "bytes" => {
                if self.part == Part::Nothing {
                    self.part = Part::Setup;
                }
                for (i, (_, word)) in line.words.iter().enumerate().skip(1) {
                    self.mark(line.spot(i));
                    if word.len() % 2 != 0 || !word.bytes().all(|digit| digit.is_ascii_hexdigit()) {
                        return Err(line.fault(
                            i,
                            format!("'{word}' is no row of bytes: two hexadecimal digits for each"),
                        ));
                    }
                    let bytes =
                        (0..word.len()).step_by(2).map(|at| u8::from_str_radix(&word[at..at + 2], 16));
                    self.script.bytes.extend(bytes.map(|byte| byte.expect("two hexadecimal digits")));
                }
            }
            _ => {
                let names: Vec<_> = LINES.iter().map(|(name, _)| *name).collect();
                return Err(line.fault(0, format!("'{name}' is no line of a session: {}", names.join(", "))));
            }
        }
        Ok(())
    }

    fn end(&mut self, spot: Spot) {
        self.requests(spot);
        self.end_field(spot);
        self.part = Part::Closed;
    }
}

/// The bytes that a text says.
pub fn read(input: &Input) -> Result<Script, Fault> {
    let Ok(text) = std::str::from_utf8(&input.bytes) else {
        let at = std::str::from_utf8(&input.bytes).map_or_else(|error| error.valid_up_to(), |_| 0);
        return Err(
            input.text_fault(at, "neither a text in UTF-8 nor the bytes of a session, which begin with 01")
        );
    };
    let mut writer = Writer { script: Script::default(), part: Part::Nothing };
    let mut last = Spot { line: 1, column: 1 };
    for (i, full) in text.split('\n').enumerate() {
        let said = full.split('#').next().unwrap_or_default();
        let words = words(said);
        let width = said.trim_end().chars().count();
        last = Spot { line: i + 1, column: full.chars().count() + 1 };
        if !words.is_empty() {
            writer.line(&Line { input, number: i + 1, words, width })?;
        }
    }
    if writer.part != Part::Closed {
        writer.end(last);
    }
    writer.mark(last);
    Ok(writer.script)
}

/// The words of a line with their columns.
fn words(said: &str) -> Vec<(usize, &str)> {
    let mut found = Vec::new();
    let mut from = None;
    for (column, (at, letter)) in said.char_indices().chain([(said.len(), ' ')]).enumerate() {
        match (from, letter.is_whitespace()) {
            (None, false) => from = Some((column + 1, at)),
            (Some((column, begins)), true) => {
                found.push((column, &said[begins..at]));
                from = None;
            }
            _ => {}
        }
    }
    found
}
