//! Demand 3 by force over generated tables, and that the check can fail.

use compare::library::Plain;
use compare::options::Options;
use compare::run::run;
use generator::{Rng, make};
use simulator::Table;
use simulator::demand3::check;
use simulator::question::judge;
use simulator::walk::{Stop, Walk, walk};

#[test]
fn figures_are_never_passed_and_are_attained() {
    let options = Options { seed: 3_000_000, count: 1_000, force: 1, ..Options::default() };
    let outcomes = run(&Plain(baseline::Pace::Event), &options).unwrap_or_else(|fault| panic!("{fault}"));
    // Each table that is answered was looked at, with figures for its graphs.
    assert_eq!(outcomes.forced, outcomes.reports[0]);
    assert!(outcomes.forced > 400, "{outcomes}");
    assert!(outcomes.attained >= outcomes.forced, "{outcomes}");
    assert!(outcomes.invocations > 100_000, "{outcomes}");
}

/// The settled tables of some seeds.
fn settled() -> impl Iterator<Item = (Table, u32, Walk)> {
    (0..300).filter_map(|seed| {
        let (table, hyperperiod) = judge(&make(seed).text).ok()?;
        let walk = walk(&table, hyperperiod, |_, _| ());
        matches!(walk.stop, Stop::Settled { .. }).then_some((table, hyperperiod, walk))
    })
}

#[test]
fn figures_one_off_are_found_out() {
    let mut seen = 0;
    for (table, hyperperiod, walk) in settled() {
        let mut rng = Rng::new(7);
        let mut needs = |budget| rng.between(1, budget);
        assert!(check(&table, hyperperiod, &walk, 2, &mut needs).is_ok());
        for graph in 0..table.graphs.len() {
            let mut wrong = walk.clone();
            wrong.figures[graph] -= 1;
            let below = check(&table, hyperperiod, &wrong, 2, &mut needs);
            assert!(below.is_err_and(|what| what.contains("above the figure")));
            wrong.figures[graph] += 2;
            let above = check(&table, hyperperiod, &wrong, 2, &mut needs);
            assert!(above.is_err_and(|what| what.contains("no invocation")));
            seen += 1;
        }
    }
    assert!(seen > 200, "{seen}");
}

/// Random needs do change when jobs finish: otherwise the force is idle.
#[test]
fn random_needs_finish_some_invocations_sooner() {
    use simulator::schedule::Schedule;
    let finishes = |table: &Table, needs: &mut dyn FnMut(u32) -> u32| -> Vec<Option<u32>> {
        let mut schedule = Schedule::new(table, needs);
        for instant in 0..200 {
            schedule.finish(instant);
            schedule.release(instant);
            schedule.run();
        }
        schedule.sink(0).jobs().iter().map(|job| job.finished).collect()
    };
    let mut sooner = 0;
    for (table, _, _) in settled() {
        let mut rng = Rng::new(11);
        let whole = finishes(&table, &mut |budget| budget);
        let by_need = finishes(&table, &mut |budget| rng.between(1, budget));
        sooner += usize::from(whole != by_need);
    }
    assert!(sooner > 30, "{sooner}");
}
