//! The small halt from Rust: four lanes of 256 bytes at most. A setup that is not the halt's gives 90, and a table of another setup 10.

use zenfrosta::refusals::NOTHING_HELD;
use zenfrosta::{halt, make, Plan, PlanLane, Refusal, TABLE_SIZE};

fn put(table: &mut [u8], lane: u8, mark: u32, length: u64) {
    if let Err(refusal) = halt::put(table, lane, mark, length) {
        println!("lane {lane}: {refusal}");
    }
}

fn main() -> Result<(), Refusal> {
    let mut table = [0; TABLE_SIZE];
    // One lane of another longest: a good setup, and not the halt's.
    let mut other = Plan::new();
    other.lanes[0] = Some(PlanLane::new(512, 100));
    if let Err(refusal) = halt::make(&other.to_setup()?, &mut table) {
        println!("another setup: {}: {}", refusal.number, refusal.words());
    }
    make(&other.to_setup()?, &mut table)?;
    put(&mut table, 0, 1, 60); // a good table, and not the halt's
    let mut plan = Plan::new();
    for (lane, weight) in [512, 256, 128, 128].into_iter().enumerate() {
        plan.lanes[lane] = Some(PlanLane::new(weight, 256));
    }
    println!("a halt of {} lanes", halt::make(&plan.to_setup()?, &mut table)?);
    for lane in 0..4 {
        put(&mut table, lane, lane.into(), 256);
    }
    put(&mut table, 0, 4, 257); // longer than any record of the halt's
    put(&mut table, 4, 4, 60); // no such lane
    loop {
        match halt::take(&mut table) {
            Ok(record) => println!("lane {}: record {}, {} bytes", record.lane, record.mark, record.length),
            Err(refusal) if refusal.number == NOTHING_HELD => break,
            Err(refusal) => return Err(refusal),
        }
    }
    halt::restart(&mut table)
}
