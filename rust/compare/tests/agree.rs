//! Both plain engines give the second simulator's answers.

use baseline::Pace;
use compare::library::{Library, Plain};
use compare::options::Options;
use compare::run::run;

fn agrees(library: &dyn Library, seed: u64) {
    let options = Options { seed, count: 2_000, force: 0, ..Options::default() };
    let outcomes = run(library, &options).unwrap_or_else(|fault| panic!("{fault}"));
    assert_eq!(outcomes.reports.iter().sum::<u64>(), 2_000);
    assert!(outcomes.missing(false).is_empty(), "{outcomes}");
    assert!(outcomes.calls.iter().sum::<u64>() > 50_000, "{outcomes}");
}

#[test]
fn tick_by_tick() {
    agrees(&Plain(Pace::Tick), 1_000_000);
}

#[test]
fn event_to_event() {
    agrees(&Plain(Pace::Event), 2_000_000);
}
