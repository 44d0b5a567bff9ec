//! A plan sent over the air, from Rust: it waits while records are held, comes into force with the last take, and an old edition is refused.

use zenfrosta::{edition, make, offer, put, restart, take, Offered, Plan, PlanLane, Refusal, TABLE_SIZE};

/// What the office does: the plan as a page of this edition. And what the unit says to it.
fn send(table: &mut [u8], plan: &Plan, number: u16) -> Result<(), Refusal> {
    match offer(table, &plan.to_page(number)?) {
        Ok(Offered::InForce) => println!("edition {number}: in force"),
        Ok(Offered::Waits) => println!("edition {number}: waits"),
        Err(refusal) => println!("edition {number}: {refusal}"),
    }
    Ok(())
}

fn send_record(table: &mut [u8], lane: u8, mark: u32, length: u64) {
    match put(table, lane, mark, length) {
        Ok(ahead) => println!("lane {lane}: {ahead} before yours"),
        Err(refusal) => println!("lane {lane}: {refusal}"),
    }
}

fn take_one(table: &mut [u8]) -> bool {
    let taken = take(table);
    if let Ok(record) = &taken {
        println!("lane {}: record {}, {} bytes", record.lane, record.mark, record.length);
    }
    taken.is_ok()
}

fn editions(table: &[u8]) -> Result<(), Refusal> {
    let known = edition(table)?;
    println!("last edition {}, waiting {}", known.last, known.waiting.unwrap_or(0));
    Ok(())
}

fn main() -> Result<(), Refusal> {
    let mut plan = Plan::new();
    plan.lanes[0] = Some(PlanLane::new(512, 1_500));
    plan.lanes[1] = Some(PlanLane::new(256, 1_500));
    let mut table = [0; TABLE_SIZE];
    make(&plan.to_setup()?, &mut table)?;
    send_record(&mut table, 0, 1, 1_000);
    send_record(&mut table, 1, 2, 500);
    // The new plan has no lane 1, and a lane 2.
    plan.lanes[1] = None;
    plan.lanes[2] = Some(PlanLane::new(128, 576));
    send(&mut table, &plan, 7)?;
    editions(&table)?;
    // The old plan is still in force; and 7 is not above the edition that waits.
    send_record(&mut table, 2, 3, 100);
    send(&mut table, &plan, 7)?;
    while take_one(&mut table) {}
    editions(&table)?;
    send_record(&mut table, 1, 4, 100);
    send_record(&mut table, 2, 5, 100);
    take_one(&mut table);
    restart(&mut table)?;
    // A restart keeps the edition.
    send(&mut table, &plan, 7)?;
    send(&mut table, &plan, 8)
}
