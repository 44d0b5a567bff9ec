//! Reading the input and writing the output.

use crate::args::Args;
use crate::fault::{Fault, Spot};
use std::fs::File;
use std::io::{self, IsTerminal, Read, Write};

/// The most bytes that are read of one input: far over any session, plan or table.
const MOST: u64 = 16 * 1024 * 1024;

/// An input, whole.
pub struct Input {
    /// The name that faults are told with.
    pub name: String,
    pub bytes: Vec<u8>,
}

impl Input {
    /// Reads a file; '-' is standard input.
    pub fn read(path: &str) -> Result<Input, Fault> {
        let name = if path == "-" { "standard input".to_string() } else { path.to_string() };
        let mut bytes = Vec::new();
        let done = if path == "-" {
            io::stdin().lock().take(MOST + 1).read_to_end(&mut bytes)
        } else {
            File::open(path).and_then(|file| file.take(MOST + 1).read_to_end(&mut bytes))
        };
        match done {
            Err(error) => Err(Fault::File { name, error }),
            Ok(_) if bytes.len() as u64 > MOST => {
                Err(Fault::Input { name, says: format!("over {MOST} bytes") })
            }
            Ok(_) => Ok(Input { name, bytes }),
        }
    }

    /// The line and column of a byte.
    pub fn spot(&self, place: usize) -> Spot {
        let before = &self.bytes[..place.min(self.bytes.len())];
        let line_at = before.iter().rposition(|&byte| byte == b'\n').map_or(0, |at| at + 1);
        Spot {
            line: 1 + before.iter().filter(|&&byte| byte == b'\n').count(),
            // Bytes 10xxxxxx go on with a character of UTF-8.
            column: 1 + before[line_at..].iter().filter(|&&byte| byte & 0xC0 != 0x80).count(),
        }
    }

    /// A fault at a byte of a text.
    pub fn text_fault(&self, place: usize, says: impl Into<String>) -> Fault {
        Fault::Text { name: self.name.clone(), spot: self.spot(place), says: says.into() }
    }

    /// A fault of the whole input.
    pub fn fault(&self, says: impl Into<String>) -> Fault {
        Fault::Input { name: self.name.clone(), says: says.into() }
    }
}

fn failed(name: &str) -> impl FnOnce(io::Error) -> Fault + '_ {
    move |error| match error.kind() {
        io::ErrorKind::BrokenPipe if name == "standard output" => Fault::Closed,
        _ => Fault::File { name: name.to_string(), error },
    }
}

/// Writes to the file of the option --output, or to standard output.
pub fn write(args: &Args, bytes: &[u8]) -> Result<(), Fault> {
    match args.value("--output") {
        Some(path) if path != "-" => std::fs::write(path, bytes).map_err(failed(path)),
        _ => {
            let mut out = io::stdout().lock();
            out.write_all(bytes).and_then(|()| out.flush()).map_err(failed("standard output"))
        }
    }
}

/// Writes bytes that are no text: not to a terminal.
pub fn write_raw(args: &Args, bytes: &[u8]) -> Result<(), Fault> {
    if matches!(args.value("--output"), None | Some("-")) && io::stdout().is_terminal() {
        return Err(args
            .usage("these are bytes and no text: name a file with -o, use a pipe, or see them with --hex"));
    }
    write(args, bytes)
}
