//! The calls from Rust: makes a table of two lanes, puts three records with how many are before each, and takes them until nothing is held.

use zenfrosta::refusals::NOTHING_HELD;
use zenfrosta::{make, put, take, Refusal, TABLE_SIZE};

/// Format 1; lane 0 of weight 512 and lane 1 of weight 256, both of longest 1,500.
const SETUP: &[u8] = b"\x01\0\x02\0\x01\x10\0\x05\0\x02\0\x05\xDC\x10\0\x05\x01\x01\0\x05\xDC\x7F\0\0";

fn main() -> Result<(), Refusal> {
    let mut table = [0; TABLE_SIZE];
    println!("lanes {}", make(SETUP, &mut table)?);
    for (lane, mark, length) in [(0, 1, 1000), (1, 2, 1000), (0, 3, 500)] {
        println!("lane {lane}: {} before yours", put(&mut table, lane, mark, length)?);
    }
    loop {
        match take(&mut table) {
            Ok(record) => println!("lane {}: record {}, {} bytes", record.lane, record.mark, record.length),
            Err(refusal) if refusal.number == NOTHING_HELD => return Ok(()),
            Err(refusal) => return Err(refusal),
        }
    }
}
