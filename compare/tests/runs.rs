//! Long runs: a run that was broken off and gone on with is the run that was not; states of others are refused; goals are reached.

use compare::driver::tight;
use compare::laws::ratio::Ratio;
use compare::run::kinds::{Goal, Kind, GOALS, KINDS};
use compare::run::progress::Progress;
use compare::run::sha256::sha256;
use compare::run::state::{self, joined, read, text};
use compare::run::under_test::UnderTest;
use compare::run::{Part, Run, Until, WHOLE};
use compare::stand_in::{Slip, StandIn};
use std::time::Duration;

fn units() -> UnderTest {
    UnderTest::new().expect("a boundary")
}

fn until(cases: u64) -> Until {
    Until { kind: None, goals: None, cases: Some(cases), time: None }
}

/// So many cases in all, from where the run stands.
fn go_on(run: &mut Run, until: Until) {
    let result = run.go(&mut units(), until, &mut Progress::none());
    assert!(result.is_ok(), "{result:?}");
}

/// Two runs but for their time.
fn same(mut one: Run, mut other: Run) -> bool {
    (one.spent, other.spent) = (Duration::ZERO, Duration::ZERO);
    one == other
}

#[test]
fn a_run_that_was_broken_off() {
    let mut whole = Run::new(3, WHOLE);
    go_on(&mut whole, until(3_000));
    let mut parts = Run::new(3, WHOLE);
    for cases in [1, 2, 700, 701, 2_999, 3_000] {
        go_on(&mut parts, until(cases));
        assert_eq!(parts.counts.cases(), cases);
        parts = read(&text(&parts)).expect("its own state");
    }
    assert!(whole.counts.calls.calls > 10_000, "{}", whole.counts);
    assert!(whole.counts.tight.closest.above(Ratio::new(9, 10)), "{}", whole.counts);
    assert!(same(whole, parts));
}

#[test]
fn a_state_in_a_file() {
    let path = std::env::temp_dir().join(format!("compare-state-{}", std::process::id()));
    let mut run = state::load_or_new(&path, 5, Part { at: 1, of: 3 }).expect("a new run");
    assert_eq!(run, Run::new(5, Part { at: 1, of: 3 }));
    go_on(&mut run, until(200));
    state::save(&run, &path).expect("it is written");
    let loaded = state::load_or_new(&path, 5, Part { at: 1, of: 3 });
    let others = [(6, Part { at: 1, of: 3 }), (5, Part { at: 2, of: 3 }), (5, WHOLE)]
        .map(|(seed, part)| state::load_or_new(&path, seed, part).is_err());
    std::fs::remove_file(&path).expect("it was there");
    assert!(loaded.is_ok_and(|loaded| same(loaded, run)));
    assert_eq!(others, [true; 3], "of another seed or part");
}

#[test]
fn states_that_are_refused() {
    let mut run = Run::new(3, WHOLE);
    go_on(&mut run, until(60));
    let whole = text(&run);
    assert!(read(&whole).is_ok());
    let line = |begins: &str| whole.lines().find(|line| line.starts_with(begins)).expect(begins).to_string();
    let calls = line("calls.calls ");
    let wrong = [
        ("".to_string(), "no state"),
        (whole.replace(state::LIBRARY, "0123"), "another library"),
        (whole.replace(state::SOURCES, "0123"), "other cases"),
        (whole.replace("\nend\n", "\n"), "no end"),
        (format!("{whole}end\n"), "two ends"),
        (whole.replace(&format!("{calls}\n"), ""), "a count that is missing"),
        (whole.replace(&calls, "calls.calls many"), "no number"),
        (whole.replace(&calls, "calls.calls -1"), "a count below 0"),
        (whole.replace(&calls, &format!("{calls} 1")), "two numbers for one"),
        (whole.replace(&calls, &format!("{calls}\ncalls.marks 1")), "a count that there is not"),
        (whole.replace(&line("part "), "part 2 2"), "a part that there is not"),
        (whole.replace(&line("part "), "part 1 7"), "numbers of another part"),
        (whole.replace(&line("next "), "next 1 2 3"), "too few numbers"),
        (whole[..whole.len() / 2].to_string(), "the first half"),
    ];
    for (text, why) in wrong {
        assert!(read(&text).is_err(), "{why}");
    }
}

#[test]
fn parts_of_a_run() {
    let part = |at| {
        let mut run = Run::new(3, Part { at, of: 2 });
        for kind in KINDS.into_iter().filter(|kind| *kind != Kind::Tables) {
            let cases = run.counts.cases() + 20;
            go_on(&mut run, Until { kind: Some(kind), cases: Some(cases), ..until(0) });
        }
        run
    };
    let [even, odd] = [part(0), part(1)];
    let all = joined(&[even.clone(), odd.clone()]).expect("two parts");
    let mut whole = Run::new(3, WHOLE);
    for (kind, at) in (0..).zip(KINDS).map(|(at, kind)| (kind, at)).filter(|(kind, _)| *kind != Kind::Tables)
    {
        // Both parts have every number below these.
        let end: u64 = even.next[at].min(odd.next[at]);
        assert!(end >= 20, "{kind:?}");
        if kind.drawn().is_none() {
            assert!(whole.upto(&mut units(), kind, end.max(odd.next[at] - 1), &mut Progress::none()).is_ok());
        }
    }
    assert_eq!((all.counts.boards, all.counts.plans), (whole.counts.boards, whole.counts.plans));
    assert_eq!((all.counts.sheets, all.counts.halts), (whole.counts.sheets, whole.counts.halts));
    assert_eq!((all.counts.waits, all.counts.tight), (whole.counts.waits, whole.counts.tight));
    assert_eq!(all.counts.conversions, whole.counts.conversions);
    assert_eq!(all.counts.calls.calls, even.counts.calls.calls + odd.counts.calls.calls);
    assert!(joined(&[even.clone(), even.clone()]).is_err(), "the same cases");
    assert!(joined(&[even, Run::new(3, WHOLE)]).is_err(), "cases in common");
    assert!(joined(&[odd, Run::new(4, WHOLE)]).is_ok(), "another seed");
    assert!(joined(&[]).is_err());
}

#[test]
fn goals_are_reached() {
    let goals = [30_000, 9_000, 60, 40];
    let mut run = Run::new(2, WHOLE);
    go_on(&mut run, Until { kind: None, goals: Some(goals), cases: None, time: None });
    let reached = GOALS.map(|goal| run.counts.reached(goal));
    assert!(reached.iter().zip(goals).all(|(reached, goal)| *reached >= goal), "{reached:?}");
    // No goal is far behind or beyond: each kind has its share.
    assert!(run.counts.reached(Goal::Conversions) < 60, "{reached:?}");
    assert!(run.counts.done(Kind::Sheets) > 1_000 && run.counts.done(Kind::Boards) > 1_000);
    assert!(run.counts.done(Kind::Pages) > 1_000 && run.counts.done(Kind::Runs) > 100);
    let mut one = Run::new(2, WHOLE);
    go_on(&mut one, Until { kind: None, goals: Some([0, 0, 0, 5]), cases: None, time: None });
    assert!(one.counts.reached(Goal::Conversions) >= 5 && one.counts.reached(Goal::Calls) == 0);
}

#[test]
fn a_difference_stops_the_run_at_its_case() {
    let mut units = UnderTest { unit: StandIn::new(Slip::TiesToLaterLane), ..units() };
    let mut run = Run::new(3, WHOLE);
    let found = run.go(&mut units, until(20_000), &mut Progress::none());
    let (kind, case, _) = found.expect_err("a slip");
    assert_eq!(run.next[kind as usize], case, "the case is still to come");
    let again = run.go(&mut units, until(20_000), &mut Progress::none());
    assert!(again.is_err_and(|(_, number, _)| number == case));
}

#[test]
fn lists_that_come_near_demand_3() {
    let mut tally = Default::default();
    for case in 0..3 {
        let result = tight::one(&mut StandIn::new(Slip::None), 1, case, &mut tally);
        assert!(result.is_ok(), "{result:?}");
    }
    assert!(
        tally.closest.above(Ratio::new(995, 1_000)) && tally.closest_plain.above(Ratio::new(995, 1_000)),
        "{tally}"
    );
}

#[test]
fn ratios() {
    let (third, half) = (Ratio::new(1, 3), Ratio::new(2, 4));
    assert!(half.above(third) && !third.above(half) && !half.above(Ratio::new(1, 2)));
    assert_eq!((Ratio::default().or(third), half.or(third)), (third, half));
    assert_eq!([third, Ratio::new(99_999, 100_000)].map(|ratio| ratio.to_string()), ["33.33 %", "99.99 %"]);
}

#[test]
fn sums() {
    let known = [
        (0, "e3b0c44298fc1c149afbf4c8996fb92427ae41e4649b934ca495991b7852b855"),
        (3, "ba7816bf8f01cfea414140de5dae2223b00361a396177a9cb410ff61f20015ad"),
        (55, "9f4390f8d30c2dd92ec9f095b65e2b9ae9b0a925a5258e241c9f1e910f734318"),
        (56, "b35439a4ac6f0948b6d6f9e3c6af0f5f590ce20f1bde7090ef7970686ec6738a"),
        (64, "ffe054fe7ae0cb6dc65c3af9b61d5209f439851db43d0ba5997337df154668eb"),
        (119, "31eba51c313a5c08226adf18d4a359cfdfd8d2e816b13f4af952f7ea6584dcfb"),
    ];
    for (length, sum) in known {
        let bytes = if length == 3 { b"abc".to_vec() } else { vec![b'a'; length] };
        assert_eq!(sha256(&bytes), sum, "{length} bytes");
    }
}
