//! R-8 by force over generated tables, and that the check can fail.

use generator::{Rng, make};
use simulator::Table;
use simulator::overlap::{Looked, check, check_levels};
use simulator::reader::read;

/// Ticks looked at of each table.
const TICKS: u32 = 600;

/// The tables of some seeds that pass 1 to 4, whether their walks settle or not.
fn tables() -> impl Iterator<Item = Table> {
    (4_000_000..4_000_600).filter_map(|seed| read(&make(seed).text).ok())
}

#[test]
fn overlap_is_limited_for_any_needs() {
    let mut looked = Looked::default();
    let mut rng = Rng::new(5);
    for table in tables() {
        looked +=
            check(&table, TICKS, |budget| rng.between(1, budget)).unwrap_or_else(|what| panic!("{what}"));
        looked += check(&table, TICKS, |budget| budget).unwrap_or_else(|what| panic!("{what}"));
    }
    assert!(looked.overlaps > 10_000 && looked.starts > 10_000, "{looked:?}");
}

/// The temperature node: at level 1 no two of its jobs run in one tick.
#[test]
fn at_level_1_nothing_overlaps() {
    let mut rng = Rng::new(6);
    for mut table in tables() {
        table.graphs.iter_mut().flat_map(|graph| &mut graph.nodes).for_each(|node| node.level = 1);
        let looked =
            check(&table, TICKS, |budget| rng.between(1, budget)).unwrap_or_else(|what| panic!("{what}"));
        assert_eq!(looked.overlaps, 0);
    }
}

/// Held to a level less than that of the table, jobs are too many at once or start too early.
#[test]
fn a_level_one_off_is_found_out() {
    let (mut too_many, mut too_early) = (0, 0);
    let mut rng = Rng::new(7);
    for table in tables() {
        let less = check_levels(&table, |node| node.level - 1, TICKS, |budget| rng.between(1, budget));
        too_many += u32::from(less.as_ref().is_err_and(|what| what.contains("run in the tick")));
        too_early += u32::from(less.is_err_and(|what| what.contains("has finished")));
    }
    // Most tables show too many jobs at once before a start that is too early.
    assert!(too_many > 50 && too_early > 0, "{too_many}, {too_early}");
}
