//! Settings pages: what a page says, read by what a fresh unit does with it.

use crate::fields::Fields;
use crate::files::Input;
use crate::plans::at_byte;
use crate::Fault;
use zenfrosta::refusals::OLD_EDITION;
use zenfrosta::{make, offer, Plan, PlanLane, TABLE_SIZE};

/// A page that a unit can read.
pub struct Page {
    pub edition: u16,
    pub plan: Plan,
    /// The tags and lengths of the fields that units of today skip.
    pub skipped: Vec<(u8, usize)>,
}

/// The page of an input. A fresh unit takes every page that it can read, but for edition 0, which it can read too.
pub fn read(input: &Input) -> Result<Page, Fault> {
    let mut plan = Plan::new();
    plan.lanes[0] = Some(PlanLane::new(1, 64));
    let mut table = vec![0; TABLE_SIZE];
    let setup = plan.to_setup().expect("a plan within the numbers");
    make(&setup, &mut table).expect("a setup that was written");
    match offer(&mut table, &input.bytes) {
        Err(refusal) if refusal.number != OLD_EDITION => return Err(at_byte(input, refusal)),
        _ => {}
    }
    // The page is whole: 40, then 41, then 7F, each as long as it must be.
    let mut page = Page { edition: 0, plan, skipped: Vec::new() };
    for field in Fields::new(&input.bytes) {
        match field.tag {
            0x40 => page.edition = field.number(0, 2) as u16,
            0x41 => page.plan = Plan::from_setup(field.value).map_err(|refusal| at_byte(input, refusal))?,
            0x80.. => page.skipped.push((field.tag, field.value.len())),
            _ => {}
        }
    }
    Ok(page)
}
