//! What the tool says when it cannot do what it was asked, and its exit status then.

use std::fmt;
use std::io;

/// A place in a text: line and column, from 1; a column is a character.
#[derive(Clone, Copy, Debug, PartialEq, Eq)]
pub struct Spot {
    pub line: usize,
    pub column: usize,
}

impl fmt::Display for Spot {
    fn fmt(&self, f: &mut fmt::Formatter<'_>) -> fmt::Result {
        write!(f, "{}:{}", self.line, self.column)
    }
}

#[derive(Debug)]
pub enum Fault {
    /// The command line is wrong.
    Usage(String),
    /// A text is wrong at a spot.
    Text { name: String, spot: Spot, says: String },
    /// Something is wrong that has no spot in a text; `says` has the byte where there is one.
    Input { name: String, says: String },
    /// A file cannot be read or written.
    File { name: String, error: io::Error },
    /// Standard output is closed: whoever read it has seen enough.
    Closed,
}

impl Fault {
    /// 1: the input is refused; 2: the command line is wrong; 3: a file cannot be read or written.
    pub fn status(&self) -> u8 {
        match self {
            Fault::Text { .. } | Fault::Input { .. } => 1,
            Fault::Usage(_) => 2,
            Fault::File { .. } => 3,
            Fault::Closed => 0,
        }
    }
}

impl fmt::Display for Fault {
    fn fmt(&self, f: &mut fmt::Formatter<'_>) -> fmt::Result {
        match self {
            Fault::Usage(says) => write!(f, "zenfrosta: {says}"),
            Fault::Text { name, spot, says } => write!(f, "{name}:{spot}: {says}"),
            Fault::Input { name, says } => write!(f, "{name}: {says}"),
            Fault::File { name, error } => write!(f, "zenfrosta: {name}: {error}"),
            Fault::Closed => Ok(()),
        }
    }
}
