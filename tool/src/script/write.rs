//! A session's bytes written as a text, or as hexadecimal digits.

use super::Part;
use crate::fields::{Field, Fields};
use std::fmt::Write;

/// The line of a field that stands in its part; nothing for any other.
pub fn line_of(field: &Field<'_>, in_setup: bool) -> Option<String> {
    let value = field.value;
    let number = |from, size| field.number(from, size);
    Some(match (in_setup, field.tag, value.len()) {
        (true, 0x01, 2) => format!("format {}", number(0, 2)),
        (true, 0x11, 1) => format!("framing {}", value[0]),
        (true, 0x10, 3) => format!("lane {} {}", value[0], number(1, 2)),
        (true, 0x10, 5) => format!("lane {} {} {}", value[0], number(1, 2), number(3, 2)),
        (true, 0x12, 1) => format!("shared {}", value[0]),
        (false, 0x26, 8) => format!("put {} {} {} {}", value[0], value[1], number(2, 4), number(6, 2)),
        (false, 0x20, 7) => format!("put {} {} {}", value[0], number(1, 4), number(5, 2)),
        (false, 0x21, 0) => "take".to_string(),
        (false, 0x22, 0) => "look".to_string(),
        (false, 0x23, 0) => "sets".to_string(),
        (false, 0x24, 1) => format!("lag {}", value[0]),
        (false, 0x25, 0) => "restart".to_string(),
        _ => return None,
    })
}

/// The requests of a session, each with the place of its tag; as far as they are fields of the right form.
pub fn requests(session: &[u8]) -> Vec<(usize, String)> {
    let mut fields = Fields::new(session);
    if fields.by_ref().all(|field| !field.is_end()) {
        return Vec::new();
    }
    fields.map_while(|field| line_of(&field, false).map(|line| (field.at, line))).collect()
}

/// A text that gives these bytes again.
pub fn write(session: &[u8]) -> String {
    let mut text = String::new();
    let mut say = |line: &str| writeln!(text, "{line}").expect("a String takes all");
    let mut fields = Fields::new(session).peekable();
    let mut part = Part::Nothing;
    let mut done = 0;
    while let Some(field) = fields.next() {
        let next = fields.peek();
        match part {
            Part::Nothing | Part::Setup => {
                // A text that begins with no format would be given one.
                if part == Part::Nothing && (field.tag, field.value.len()) != (0x01, 2) {
                    break;
                }
                if field.is_end() {
                    part = Part::Requests;
                    match next {
                        Some(next) if line_of(next, false).is_some() => say(""),
                        Some(next) if next.is_end() => {}
                        _ => say("requests"),
                    }
                } else if let Some(line) = line_of(&field, true) {
                    part = Part::Setup;
                    say(&line);
                } else {
                    break;
                }
            }
            Part::Requests if field.is_end() => {
                say("end");
                part = Part::Closed;
            }
            Part::Requests => match line_of(&field, false) {
                Some(line) => say(&line),
                None => break,
            },
            Part::Closed => break,
        }
        done = field.end();
    }
    for row in session[done..].chunks(16) {
        let digits: Vec<_> = row.iter().map(|byte| format!("{byte:02X}")).collect();
        say(&format!("bytes {}", digits.join(" ")));
    }
    if part != Part::Closed {
        say("cut");
    }
    text
}

/// A settings page as hexadecimal digits: its own fields, and those of the setup inside.
pub fn page_hex(page: &[u8]) -> String {
    let mut text = String::new();
    for field in Fields::new(page) {
        let digits: String = field.value.iter().map(|byte| format!("{byte:02X}")).collect();
        let head = format!("{:02X} {:04X}", field.tag, field.value.len());
        match field.tag {
            0x40 => writeln!(text, "{:<26}# edition {}", format!("{head} {digits}"), field.number(0, 2)),
            0x41 => writeln!(text, "{head:<26}# a setup of so many bytes")
                .and_then(|()| write!(text, "{}", hex(field.value))),
            _ => writeln!(text, "{head:<26}# the page's end"),
        }
        .expect("a String takes all");
    }
    text
}

/// The bytes as hexadecimal digits, a field on a line with what it says.
pub fn hex(session: &[u8]) -> String {
    let mut text = String::new();
    let mut in_setup = true;
    let mut done = 0;
    for field in Fields::new(session) {
        let digits = |bytes: &[u8]| bytes.iter().map(|byte| format!("{byte:02X}")).collect::<String>();
        let [_, high, low] = [field.tag, session[field.at + 1], session[field.at + 2]];
        let shown = format!("{:02X} {:02X}{:02X} {}", field.tag, high, low, digits(field.value));
        let says = if field.is_end() {
            let says = if in_setup { "the setup's end" } else { "the end" };
            in_setup = false;
            says.to_string()
        } else {
            line_of(&field, in_setup).unwrap_or_else(|| "no field of this part".to_string())
        };
        writeln!(text, "{:<26}# {says}", shown.trim_end()).expect("a String takes all");
        done = field.end();
    }
    for row in session[done..].chunks(16) {
        let digits: Vec<_> = row.iter().map(|byte| format!("{byte:02X}")).collect();
        writeln!(text, "{:<26}# no whole field", digits.join(" ")).expect("a String takes all");
    }
    text
}
