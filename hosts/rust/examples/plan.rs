//! A plan edited from Rust: a setup is read, lane 1 gets less, lane 5 comes in for several trains, the line is charged 12 framing bytes; then it is
//! written, and a wrong edit is refused.

use zenfrosta::{Plan, PlanLane, Refusal};

/// Lane 0 of weight 512, its longest left out; lane 1 of weight 256 and 1,500 bytes.
const DEPOT: &[u8] = b"\x01\0\x02\0\x01\x10\0\x03\0\x02\0\x10\0\x05\x01\x01\0\x05\xDC\x7F\0\0";

fn show(plan: &Plan) {
    println!("format {}, framing {}", plan.format, plan.framing);
    for (number, lane) in plan.lanes.iter().enumerate() {
        if let Some(PlanLane { weight, longest, shared }) = lane {
            let shared = if *shared { ", shared" } else { "" };
            println!("lane {number}: weight {weight}, longest {longest}{shared}");
        }
    }
}

fn write(plan: &Plan) {
    match plan.to_setup() {
        Ok(setup) => {
            let bytes: String = setup.iter().map(|byte| format!(" {byte:02X}")).collect();
            println!("{} bytes:{bytes}", setup.len());
        }
        Err(refusal) => println!("refused with {}", refusal.number),
    }
}

fn main() -> Result<(), Refusal> {
    let mut plan = Plan::from_setup(DEPOT)?;
    println!("{} lanes", plan.lanes.iter().flatten().count());
    show(&plan);
    plan.lanes[1] = Some(PlanLane::new(128, 576));
    plan.lanes[5] = Some(PlanLane::shared(64, 64));
    plan.framing = 12;
    show(&plan);
    write(&plan);
    // The weights now sum to more than 1,024.
    plan.lanes[6] = Some(PlanLane::new(1_000, 64));
    write(&plan);
    // No lane.
    let mut plan = Plan::new();
    write(&plan);
    plan.lanes[63] = Some(PlanLane::new(1_024, 1_500));
    write(&plan);
    Ok(())
}
