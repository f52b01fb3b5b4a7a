//! The generator's tables are spread as wanted, and the same for a seed.

use generator::{Kind, make};
use simulator::question::{Answered, judge};
use simulator::reader::read;
use simulator::{Refusal, Reply, Table};
use std::collections::BTreeMap;

const SEEDS: u64 = 4_500;

#[test]
fn a_seed_gives_the_same_table_again() {
    for seed in 0..200 {
        assert_eq!(make(seed), make(seed));
    }
    assert_ne!(make(1), make(2));
}

/// Every refusal but 9 and 10, which are the caller's, and every answer.
#[test]
fn every_outcome_is_met() {
    let mut met: BTreeMap<u32, u32> = BTreeMap::new();
    for seed in 0..SEEDS {
        let number = match simulator::report(&make(seed).text) {
            Reply::Text(_) => 0,
            Reply::Refused { number, .. } => number,
        };
        *met.entry(number).or_default() += 1;
    }
    for number in (0..=8).chain([12]) {
        assert!(met.get(&number).is_some_and(|&count| count >= 8), "{number} in {met:?}");
    }
    assert!(met[&0] > 1_500, "{met:?}");
}

#[test]
fn each_kind_is_what_it_says() {
    let mut met: BTreeMap<String, [u32; 4]> = BTreeMap::new();
    for seed in 0..SEEDS {
        let made = make(seed);
        let counts = met.entry(format!("{:?}", made.kind)).or_default();
        counts[0] += 1;
        match Answered::new(&made.text).report() {
            Reply::Text(_) => counts[1] += 1,
            Reply::Refused { number: 7, .. } => counts[2] += 1,
            Reply::Refused { number: 12, .. } => counts[3] += 1,
            Reply::Refused { .. } => {}
        }
    }
    assert_eq!(met.len(), Kind::ALL.len(), "{met:?}");
    assert!(met["DeepBacklog"][2] >= 30, "{met:?}");
    assert!(met["ManyInvocations"][2] >= 30, "{met:?}");
    assert!(met["TooSlow"][3] >= 100, "{met:?}");
    for kind in ["SmallAndBusy", "Wide", "LongPeriods", "FullLoad", "ManyRounds", "Offsets", "Levels"] {
        assert!(met[kind][1] * 3 >= met[kind][0], "{kind}: {met:?}");
    }
}

/// Counts the tables, among those read and loadable, that have a property.
fn count(has: impl Fn(&Table) -> bool) -> usize {
    (0..SEEDS).filter_map(|seed| judge(&make(seed).text).ok()).filter(|(table, _)| has(table)).count()
}

#[test]
fn the_corners_are_met() {
    assert!(count(|t| t.processors == 8) > 50);
    assert!(count(|t| t.rounds == 64) > 50);
    assert!(count(|t| t.graphs.len() == 8) > 20);
    assert!(count(|t| t.node_total() == 32) > 20);
    assert!(count(|t| t.graphs.iter().any(|g| g.nodes.len() == 16)) > 20);
    assert!(count(|t| t.graphs.iter().any(|g| g.offset >= 9_990)) > 3);
    assert!(count(|t| t.graphs.iter().any(|g| g.period == 10_000)) > 3);
    assert!(count(|t| t.graphs.iter().any(|g| g.nodes.iter().any(|n| n.after.len() >= 10))) > 10);
    for level in 1..=4 {
        assert!(count(|t| t.graphs.iter().any(|g| g.nodes.iter().any(|n| n.level == level))) > 200);
    }
    let above_period = |t: &Table| t.graphs.iter().any(|g| g.nodes.iter().any(|n| n.budget > g.period));
    assert!(count(above_period) > 200);
    let late_offset = |t: &Table| {
        t.graphs.iter().any(|g| t.graphs.iter().any(|other| g.offset > other.period && other.offset == 0))
    };
    assert!(count(late_offset) > 50);
}

/// Tables that pass all before 12, with a budget just at level times period;
/// and such with one tick more.
#[test]
fn both_sides_of_keeping_up_are_met() {
    let above = |more: u32| {
        let met = |seed: &u64| {
            let Ok(table) = read(&make(*seed).text) else { return false };
            let nodes = table.graphs.iter().flat_map(|g| g.nodes.iter().map(|n| (n, n.level * g.period)));
            let highest = nodes.map(|(node, most)| i64::from(node.budget) - i64::from(most)).max();
            highest == Some(i64::from(more))
                && !matches!(judge(&make(*seed).text), Err(Refusal { number: 5 | 6, .. }))
        };
        (0..SEEDS).filter(met).count()
    };
    assert!(above(0) > 200, "{}", above(0));
    assert!(above(1) > 50, "{}", above(1));
}
