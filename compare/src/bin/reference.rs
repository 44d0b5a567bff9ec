//! Reads a session from standard input and prints what the unit's program must print for it (R10).

use std::io::{self, Read, Write};

fn main() -> io::Result<()> {
    let mut input = Vec::new();
    io::stdin().lock().read_to_end(&mut input)?;
    io::stdout().lock().write_all(compare::session::program(&input).as_bytes())
}
