//! Settings with editions (R19): offers answered by hand, tables with a waiting page, and the laws over lists with offers.

mod common;

use common::fresh;
use compare::calls::{Answer, Call, Taken};
use compare::fields::Fault;
use compare::gen::{caller::Caller, setups};
use compare::laws::editions::Editions;
use compare::laws::Laws;
use compare::layout::part::{LAST, NEW, PLAN};
use compare::layout::{self, Clause, TABLE_SIZE};
use compare::pages::draw::field;
use compare::plans::words;
use compare::rng::Rng;
use compare::rules::State;
use compare::setup::{LanePlan, Setup};
use compare::shown::{shown, Ask};

fn setup(framing: u8, lanes: &[(u8, u16, u16)]) -> Setup {
    let lane = |&(number, weight, longest)| LanePlan { number, weight, longest, shared: false };
    Setup { format: 2, framing, lanes: lanes.iter().map(lane).collect() }
}

fn page(edition: u16, setup: &Setup) -> Vec<u8> {
    let inner = words::bytes(setup);
    [field(0x40, &edition.to_be_bytes()), field(0x41, &inner), field(0x7F, &[])].concat()
}

/// Weights 512 and 256, as in the first session (R16.1), and the plan that comes over the air: lane 1 gone, lane 5 new, four framing bytes.
fn unit() -> State {
    fresh(&[(0, 512, 1_500), (1, 256, 1_500)])
}

fn new_plan() -> Setup {
    setup(4, &[(0, 64, 200), (5, 128, 300)])
}

/// The new plan's fresh table, of this edition.
fn changed(edition: u16) -> State {
    let mut state = State::fresh(&new_plan());
    state.edition = edition;
    state
}

fn taken(lane: u8, mark: u32, length: u64) -> Answer {
    Answer::Taken(Taken { lane, train: 0, mark, length })
}

#[test]
fn in_force_at_once_with_nothing_held() {
    let mut state = unit();
    assert_eq!(state.offer(&page(7, &new_plan())), Answer::InForce);
    assert_eq!((state.edition, &state.page, state.clock, state.framing), (7, &None, 0, 4));
    assert_eq!(state.put(1, 1, 100), Err(11), "lane 1 is gone");
    assert_eq!(state.put(5, 1, 300), Ok(0));
    assert_eq!(state.put(5, 1, 301), Err(12));
}

#[test]
fn waits_while_a_record_is_held_and_comes_with_the_last_take() {
    let mut state = unit();
    state.put(0, 1, 1_000).unwrap();
    state.put(1, 2, 1_000).unwrap();
    assert_eq!(state.offer(&page(7, &new_plan())), Answer::Waits);
    assert_eq!(shown(&state, Ask::Edition), Ok([0, 7, 0, 0]));
    assert_eq!(state.put(1, 3, 1_500), Ok(1), "the old setup is in force");
    assert_eq!(state.answer(&Call::Take), taken(0, 1, 1_000));
    assert_eq!(state.answer(&Call::Take), taken(1, 2, 1_000));
    assert_eq!(state.lag(5), Err(11));
    assert_eq!(state.answer(&Call::Take), taken(1, 3, 1_500), "answered by the old setup");
    assert_eq!(shown(&state, Ask::Edition), Ok([7, 0, 0, 0]));
    let right = changed(7);
    assert!(state.alike(&right), "a fresh table of the page's setup");
}

#[test]
fn refusals_and_their_order() {
    let mut state = unit();
    let plan = new_plan();
    assert_eq!(state.offer(&page(0, &plan)), Answer::No(60), "0 before any");
    // The setup inside begins at byte 8; its format is at byte 11, and 60 comes after that.
    let wrong = Setup { format: 3, ..plan.clone() };
    assert_eq!(state.offer(&page(0, &wrong)), Answer::Unread(Fault::at(50, 11)));
    assert_eq!(state.offer(&page(9, &plan)), Answer::InForce);
    for edition in [0, 8, 9] {
        assert_eq!(state.offer(&page(edition, &plan)), Answer::No(60));
    }
    state.put(5, 1, 100).unwrap();
    assert_eq!(state.offer(&page(12, &setup(0, &[(3, 1, 64)]))), Answer::Waits);
    let before = state.clone();
    for edition in [9, 10, 12] {
        assert_eq!(state.offer(&page(edition, &plan)), Answer::No(60), "the one that waits counts");
    }
    let cut = page(13, &plan);
    assert_eq!(state.offer(&cut[..cut.len() - 1]), Answer::Unread(Fault::at(1, cut.len() - 3)));
    assert_eq!(state, before, "a refused page changes nothing");
    assert_eq!(state.offer(&page(13, &plan)), Answer::Waits, "it takes the other's place");
    state.take().unwrap();
    assert_eq!((state.edition, state.framing), (13, 4));
    assert_eq!(state.offer(&page(65_535, &plan)), Answer::InForce);
    assert_eq!(state.offer(&page(65_535, &plan)), Answer::No(60), "the last edition of all");
}

#[test]
fn restart_keeps_the_edition() {
    let mut state = unit();
    state.offer(&page(300, &new_plan()));
    state.put(0, 1, 10).unwrap();
    assert_eq!(state.offer(&page(301, &new_plan())), Answer::Waits);
    assert_eq!(state.restart(), Err(15));
    assert_eq!(state.page.as_ref().map(|page| page.edition), Some(301));
    state.take().unwrap();
    state.restart().unwrap();
    assert_eq!((state.edition, state.framing), (301, 4));
    assert_eq!(state.offer(&page(301, &new_plan())), Answer::No(60));
}

#[test]
fn skipped_fields_change_nothing() {
    let plain = page(7, &new_plan());
    let more = [
        &plain[..5],
        &[0xC0, 0, 2, 0xAA, 0xBB],
        &plain[5..plain.len() - 3],
        &[0x80, 0, 0],
        &plain[plain.len() - 3..],
    ];
    for held in [false, true] {
        let (mut one, mut other) = (unit(), unit());
        if held {
            one.put(0, 1, 10).unwrap();
            other.put(0, 1, 10).unwrap();
        }
        assert_eq!(one.offer(&plain), other.offer(&more.concat()));
        assert_eq!(one, other);
    }
}

/// A table of a unit that holds a record, with edition 6 taken and edition 7 waiting.
fn table() -> Vec<u8> {
    let mut state = unit();
    state.edition = 6;
    state.put(0, 1, 1_000).unwrap();
    assert_eq!(state.offer(&page(7, &new_plan())), Answer::Waits);
    let mut bytes = vec![0xFF; TABLE_SIZE];
    layout::write(&state, &mut bytes);
    assert!(layout::read(&bytes).good().expect("a good table").alike(&state));
    bytes
}

fn broken(changes: &[(usize, u64)]) -> Vec<Clause> {
    let mut bytes = table();
    changes.iter().for_each(|(at, value)| layout::set_word(&mut bytes, *at, *value));
    layout::read(&bytes).broken
}

#[test]
fn a_good_table_with_a_waiting_page() {
    use Clause::*;
    let plan = PLAN / 8;
    assert_eq!((LAST, NEW, plan, table().len() / 8), (7_936, 7_937, 7_938, 8_192));
    assert_eq!(broken(&[]), []);
    assert_eq!(broken(&[(LAST, 7)]), [EditionAbove]);
    assert_eq!(broken(&[(NEW, 6)]), [EditionAbove]);
    assert_eq!(broken(&[(NEW, 65_535)]), []);
    assert_eq!(broken(&[(NEW, 65_536)]), [NewEdition]);
    assert_eq!(broken(&[(LAST, 65_535), (NEW, 0)]), []);
    assert_eq!(broken(&[(LAST, 65_536), (NEW, 0)]), [LastEdition]);
    assert_eq!(broken(&[(LAST, 65_536)]), [LastEdition, EditionAbove]);
    // Lane 0 of the waiting plan: weight 64, longest 200.
    assert_eq!(broken(&[(plan + 1, 1_024 - 128 | 200 << 16)]), []);
    assert_eq!(broken(&[(plan + 1, 1_024 - 127 | 200 << 16)]), [PagePlan]);
    assert_eq!(broken(&[(plan + 1, 64 | 63 << 16)]), [PagePlan]);
    assert_eq!(broken(&[(plan + 1, 64 | 200 << 16 | 1 << 32)]), [], "a shared lane");
    assert_eq!(broken(&[(plan + 1, 64 | 200 << 16 | 1 << 33)]), [PagePlan]);
    assert_eq!(broken(&[(plan + 1, 0), (plan + 6, 0)]), [PagePlan], "no lane");
    assert_eq!(broken(&[(plan, 1 | 64 << 16)]), [], "format 1, 64 framing bytes");
    assert_eq!(broken(&[(plan, 2 | 65 << 16)]), [PagePlan]);
    assert_eq!(broken(&[(plan, 3)]), [PagePlan]);
    // The words of the plan mean nothing where none waits, and neither does what is behind them.
    assert_eq!(broken(&[(NEW, 0), (plan, u64::MAX), (plan + 1, u64::MAX)]), []);
    assert_eq!(broken(&[(plan + 65, 0), (8_191, 1)]), []);
    // The same page where nothing is held.
    let mut bytes = table();
    let mut idle = unit();
    idle.edition = 6;
    layout::write(&idle, &mut bytes);
    assert_eq!(layout::read(&bytes).broken, []);
    layout::set_word(&mut bytes, NEW, 7);
    assert_eq!(layout::read(&bytes).broken, [PageHeld]);
}

#[test]
fn the_law_of_editions_goes_by_the_answers() {
    let waits = Call::Offer(page(7, &new_plan()).into());
    let put = Call::Put { lane: 0, mark: 1, length: 100 };
    // A page in force while a record is held.
    let mut law = Editions::default();
    let mut state = unit();
    let answer = state.answer(&put);
    assert_eq!(law.step(&put, answer, &state), Ok(false));
    assert!(law.step(&waits, Answer::InForce, &state).is_err());
    // One that is said to wait, and does not.
    let mut law = Editions::default();
    law.step(&put, answer, &state).unwrap();
    let changed = changed(7);
    assert!(law.step(&waits, Answer::Waits, &changed).is_err());
    // One that waits with nothing held.
    assert!(Editions::default().step(&waits, Answer::Waits, &unit()).is_err());
    // An edition that was accepted before.
    let mut law = Editions::default();
    assert_eq!(law.step(&waits, Answer::InForce, &changed), Ok(true));
    assert!(law.step(&waits, Answer::InForce, &changed).is_err());
    // A restart that forgets it.
    let forgets = State::fresh(&new_plan());
    assert!(law.step(&Call::Restart, Answer::Restarted, &forgets).is_err());
}

#[test]
fn the_laws_hold_over_changes_of_setup() {
    let (mut changes, mut by_take) = (0, 0);
    for seed in 0..60 {
        let mut rng = Rng::new(seed);
        let mut state = State::fresh(&setups::setup(&mut rng));
        let mut laws = Laws::new(&state);
        let mut caller = Caller::offering(&mut rng);
        for _ in 0..1_500 {
            let call = caller.next(&mut rng, &state);
            let answer = state.answer(&call);
            caller.heard(answer);
            laws.step(&call, answer, &state).unwrap_or_else(|broken| panic!("seed {seed}: {broken}"));
        }
        laws.end(&state).unwrap();
        changes += laws.editions.changes;
        by_take += laws.editions.by_take;
    }
    assert!(changes > 100 && by_take > 60, "{changes} changes, {by_take} by a take");
}
