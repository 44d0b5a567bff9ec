//! After an update, from Rust: takes over a table that was kept from before lanes had room for 64 records, puts a record more and takes them all.

use zenfrosta::{convert, put, take, Refusal, OLD_TABLE_SIZE, TABLE_SIZE};

/// The words of the kept table that are not 0, by their numbers: the table of the example `session` after its three puts, as it was before the update.
const WORDS: [(usize, u64); 13] = [
    (1, 3),                      // lanes 0 and 1
    (80, 0x0008_0016_0200_05DC), // lane 0: c 2,048, group 22, weight 512, longest 1,500
    (82, 2 * 16),                // two records, from place 0 on
    (84, 0x0010_0017_0100_05DC), // lane 1: c 4,096, group 23, weight 256, longest 1,500
    (86, 16),                    // one record
    (336, 1 + (1000 << 32)),     // lane 0's records: mark and length
    (337, 3 + (500 << 32)),
    (352, 2 + (1000 << 32)), // lane 1's
    (1360, 0x00C0_0000),     // groups 22 and 23 have lanes
    (1398, 1),               // .. each in its list 0
    (1399, 1),
    (1496, 1), // one lane in each: how many, by bytes
    (1500, 1),
];

/// .. and the one place of those lists that does not hold lane 0.
const LANE_1: usize = 26_624;

/// Nothing is held.
const NOTHING_HELD: u64 = 16;

/// What a host reads from where it keeps its table.
fn kept() -> [u8; OLD_TABLE_SIZE] {
    let mut table = [0; OLD_TABLE_SIZE];
    for (index, value) in WORDS {
        table[8 * index..8 * index + 8].copy_from_slice(&value.to_le_bytes());
    }
    table[LANE_1] = 1;
    table
}

fn main() -> Result<(), Refusal> {
    let mut table = [0; TABLE_SIZE];
    convert(&kept(), &mut table)?;
    println!("taken over");
    println!("lane 0: {} before yours", put(&mut table, 0, 4, 200)?);
    loop {
        match take(&mut table) {
            Ok(record) => println!("lane {}: record {}, {} bytes", record.lane, record.mark, record.length),
            Err(refusal) if refusal.number == NOTHING_HELD => return Ok(()),
            Err(refusal) => return Err(refusal),
        }
    }
}
