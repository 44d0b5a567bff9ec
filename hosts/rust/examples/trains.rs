//! Several trains in one lane from Rust: trains 5 and 2 share lane 0 and take turns by bytes; lane 1 is not shared. A train has room for 8 records.

use zenfrosta::refusals::NOTHING_HELD;
use zenfrosta::{lane, make, put_train, take, waiting_of, Plan, PlanLane, Refusal, TABLE_SIZE};

fn put(table: &mut [u8], lane: u8, train: u8, mark: u32, length: u64) {
    match put_train(table, lane, train, mark, length) {
        Ok(ahead) => println!("train {train} in lane {lane}: {ahead} before yours"),
        Err(refusal) => println!("train {train} in lane {lane}: {refusal}"),
    }
}

fn main() -> Result<(), Refusal> {
    let mut plan = Plan::new();
    plan.lanes[0] = Some(PlanLane::shared(512, 100));
    plan.lanes[1] = Some(PlanLane::new(256, 100));
    let mut table = [0; TABLE_SIZE];
    make(&plan.to_setup()?, &mut table)?;
    for number in 0..2 {
        let setting = lane(&table, number)?;
        println!("lane {number}: group {}{}", setting.group, if setting.shared { ", shared" } else { "" });
    }
    // Train 5 sends 100 bytes and has nothing left over. Train 2 sends 60 and keeps 40; with its next turn it has 140, and sends two.
    put(&mut table, 0, 5, 1, 100);
    put(&mut table, 0, 5, 2, 100);
    put(&mut table, 0, 2, 3, 60);
    put(&mut table, 0, 2, 4, 60);
    put(&mut table, 0, 2, 5, 60);
    // No such train; and lane 1 has train 0 alone.
    put(&mut table, 0, 8, 6, 60);
    put(&mut table, 1, 1, 6, 60);
    let third = waiting_of(&table, 0, 2, 2)?;
    println!("two of its train go out before record {} of train {}", third.mark, third.train);
    loop {
        match take(&mut table) {
            Ok(record) => println!(
                "lane {}, train {}: record {}, {} bytes",
                record.lane, record.train, record.mark, record.length
            ),
            Err(refusal) if refusal.number == NOTHING_HELD => break,
            Err(refusal) => return Err(refusal),
        }
    }
    // The ninth finds its queue full.
    for mark in 0..9 {
        put(&mut table, 0, 7, mark, 1);
    }
    Ok(())
}
