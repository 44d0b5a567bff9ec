//! The office's sheet from Rust: it is read into a plan, lane 7 comes in, and the plan is written as a sheet and as a setup; wrong sheets are refused.

use zenfrosta::{Plan, PlanLane, Refusal};

fn read(sheet: &str) -> Result<Plan, Refusal> {
    let plan = Plan::from_sheet(sheet.as_bytes());
    match &plan {
        Ok(plan) => println!("{} lanes", plan.lanes.iter().flatten().count()),
        Err(refusal) => {
            println!("refused with {} at byte {}", refusal.number, refusal.place.unwrap_or_default())
        }
    }
    plan
}

fn write(plan: &Plan) {
    match plan.to_sheet() {
        Ok(sheet) => print!("{sheet}"),
        Err(refusal) => println!("refused with {}", refusal.number),
    }
}

fn main() -> Result<(), Refusal> {
    let mut plan = read("0 512 1500\n1 256 576\n")?;
    plan.lanes[7] = Some(PlanLane::new(16, 64));
    write(&plan);
    println!("{} bytes of setup", plan.to_setup()?.len());
    // A sheet cannot say it.
    plan.framing = 12;
    write(&plan);
    // A digit behind a leading 0; the last line feed is missing; a longest under 64; lanes that do not rise; weights over 1,024.
    for wrong in ["1 0256 576\n", "1 256 576", "1 256 63\n"] {
        let _ = read(&format!("0 512 1500\n{wrong}"));
    }
    let _ = read("1 512 1500\n0 256 576\n");
    let _ = read("0 1024 1500\n1 1 576\n");
    Ok(())
}
