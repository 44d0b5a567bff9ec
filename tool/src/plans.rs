//! Plans of lanes, read from whatever holds one: a sheet, a setup, a settings page, a session or a session's text.

use crate::args::Args;
use crate::fault::Fault;
use crate::fields::setup_of;
use crate::files::Input;
use crate::pages;
use crate::script;
use crate::text::digits;
use zenfrosta::{Plan, PlanLane, Refusal};

/// The options that edit a plan, for `setup` and `sheet`.
pub const EDITS: &[&str] = &["--format", "--framing", "--lane", "--remove", "--output"];

/// What an input is, by its first byte: bytes begin with the tag 01, a page with the tag 40, and a line of a sheet begins with a digit.
pub enum Kind {
    Bytes,
    Page,
    Sheet,
    Text,
}

pub fn kind(bytes: &[u8]) -> Kind {
    match bytes.first() {
        Some(0x01) => Kind::Bytes,
        Some(0x40) => Kind::Page,
        Some(b'0'..=b'9') => Kind::Sheet,
        _ => Kind::Text,
    }
}

/// A refusal in words, with what to mend.
pub fn words(refusal: Refusal) -> String {
    let mend = refusal.kind().map_or(String::new(), |kind| format!(" ({})", kind.mend()));
    format!("refused with {}: {}{mend}", refusal.number, refusal.words())
}

/// A refusal of bytes, told by their place.
pub fn at_byte(input: &Input, refusal: Refusal) -> Fault {
    match refusal.place {
        Some(place) => input.fault(format!("byte {place}: {}", words(refusal))),
        None => input.fault(words(refusal)),
    }
}

/// The plan of an input.
pub fn read(input: &Input) -> Result<Plan, Fault> {
    if input.bytes.is_empty() {
        return Err(input.fault("it is empty: no sheet, no setup and no session"));
    }
    let place = |refusal: &Refusal| refusal.place.unwrap_or(0) as usize;
    match kind(&input.bytes) {
        Kind::Bytes => Plan::from_setup(setup_of(&input.bytes)).map_err(|refusal| at_byte(input, refusal)),
        Kind::Page => pages::read(input).map(|page| page.plan),
        Kind::Sheet => Plan::from_sheet(&input.bytes)
            .map_err(|refusal| input.text_fault(place(&refusal), words(refusal))),
        Kind::Text => {
            let said = script::read(input)?;
            Plan::from_setup(setup_of(&said.bytes)).map_err(|refusal| at_spot(input, &said, refusal))
        }
    }
}

/// A refusal of a text's bytes, told by the text's line and column.
pub fn at_spot(input: &Input, said: &script::Script, refusal: Refusal) -> Fault {
    let spot = refusal.place.and_then(|place| said.spot(place as usize));
    match spot {
        Some(spot) => Fault::Text { name: input.name.clone(), spot, says: words(refusal) },
        None => at_byte(input, refusal),
    }
}

/// The plan that a command works on: the input's, or a new one, with the options' edits.
pub fn edited(args: &Args) -> Result<Plan, Fault> {
    let mut plan = if args.flag("--new") {
        if !args.rest.is_empty() {
            return Err(args.usage("with --new no file is read"));
        }
        Plan::new()
    } else {
        read(&Input::read(args.file()?)?)?
    };
    if let Some(format) = args.number("--format", 1, 2)? {
        plan.format = format as u16;
    }
    if let Some(framing) = args.number("--framing", 0, 64)? {
        plan.framing = framing as u8;
    }
    for text in args.values("--remove") {
        match digits::<usize>(text) {
            Some(lane) if lane < 64 => plan.lanes[lane] = None,
            _ => return Err(args.usage(format!("--remove is '{text}', and not a lane from 0 to 63"))),
        }
    }
    for text in args.values("--lane") {
        let (lane, numbers) = lane(text).ok_or_else(|| {
            args.usage(format!("--lane is '{text}', and not LANE:WEIGHT:LONGEST in numbers, as 5:64:576, with :shared behind them or not"))
        })?;
        plan.lanes[lane] = Some(numbers);
    }
    Ok(plan)
}

fn lane(text: &str) -> Option<(usize, PlanLane)> {
    let mut numbers = text.split(':');
    let lane = digits(numbers.next()?).filter(|lane| *lane < 64)?;
    let weight = digits(numbers.next()?)?;
    let longest = digits(numbers.next()?)?;
    let shared = match numbers.next() {
        None => false,
        Some("shared") => true,
        Some(_) => return None,
    };
    numbers.next().is_none().then_some((lane, PlanLane { weight, longest, shared }))
}

/// What is outside the numbers in a plan that was refused with 55, for the one who edits it.
pub fn outside(plan: &Plan) -> String {
    let mut sum = 0;
    for (number, lane) in plan.lanes.iter().enumerate() {
        let Some(PlanLane { weight, longest, .. }) = *lane else { continue };
        sum += u32::from(weight);
        if !(1..=1_024).contains(&weight) {
            return format!("lane {number}: the weight {weight} is not 1 to 1,024");
        }
        if !(64..=1_500).contains(&longest) {
            return format!("lane {number}: the longest {longest} is not 64 to 1,500");
        }
        if sum > 1_024 {
            return format!(
                "lane {number}: with its weight {weight} the weights sum to {sum}, and 1,024 is the most"
            );
        }
    }
    "there is no lane".to_string()
}

/// A refusal to write a plan.
pub fn unwritten(plan: &Plan, refusal: Refusal) -> Fault {
    let name = "the plan".to_string();
    let says = match refusal.number {
        zenfrosta::refusals::PLAN_OUTSIDE => format!("refused with 55: {}", outside(plan)),
        zenfrosta::refusals::NO_SHEET if plan.framing != 0 => {
            format!("{}; --framing 0 takes them out", words(refusal))
        }
        _ => words(refusal),
    };
    Fault::Input { name, says }
}
