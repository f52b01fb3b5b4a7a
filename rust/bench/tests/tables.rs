//! The tables are what the benchmark says they are.

use bench::measure::ticks;
use bench::tables::{Case, busy, by_nodes, by_processors, by_ticks, document, largest, times_ten, turbine};
use simulator::question::judge;
use simulator::{Reply, Table, report};

fn values(case: &Case) -> Table {
    judge(&case.text).unwrap_or_else(|refusal| panic!("{}: {refusal:?}", case.name)).0
}

#[test]
fn the_largest_walks_are_the_largest() {
    for case in largest() {
        let table = values(&case);
        assert_eq!((table.processors, table.node_total(), table.rounds), (8, 32, 64), "{}", case.name);
        assert_eq!(ticks(&case), 1_290_000, "{}", case.name);
    }
    let Reply::Text(text) = report(&largest()[0].text) else { panic!("no answer") };
    assert!(text.starts_with(b"answer=0\nround=64\nticks=1290000\n"));
    assert_eq!(report(&largest()[1].text), Reply::Refused { number: 8, line: 0, column: 0 });
}

#[test]
fn the_box_settles() {
    for case in turbine() {
        assert!(matches!(report(&case.text), Reply::Text(_)), "{:?}", report(&case.text));
    }
}

#[test]
fn something_happens_in_every_tick() {
    for case in busy() {
        assert!(values(&case).graphs.iter().all(|graph| graph.period <= 2), "{}", case.name);
        assert!(matches!(report(&case.text), Reply::Text(_)), "{}", case.name);
    }
}

#[test]
fn ten_times_the_ticks() {
    let walked: Vec<u32> = times_ten().iter().map(ticks).collect();
    assert_eq!(walked[1], 10 * walked[0]);
}

#[test]
fn growth_is_in_one_thing() {
    let walked: Vec<u32> = by_ticks().iter().map(ticks).collect();
    assert_eq!(walked, [1, 2, 4, 8, 16, 32, 64].map(|rounds| 10_000 + rounds * 20_000));
    let nodes: Vec<usize> = by_nodes().iter().map(|case| values(case).node_total()).collect();
    assert_eq!(nodes, [2, 4, 8, 16, 24, 32]);
    for case in by_nodes() {
        assert_eq!(ticks(&case), 30_000, "{}", case.name);
    }
    let processors: Vec<u32> = by_processors().iter().map(|case| values(case).processors).collect();
    assert_eq!(processors, [1, 2, 4, 8]);
    for case in by_processors() {
        assert_eq!(values(&case).node_total(), 32);
        assert!(ticks(&case) >= 20_000);
    }
}

#[test]
fn documents_tables_are_walked() {
    let walked: Vec<u32> = document().iter().map(ticks).collect();
    assert_eq!(walked, [4, 8, 8, 8, 4, 4, 9, 10_000, 729]);
    let last = document().pop().expect("a table");
    assert_eq!(report(&last.text), Reply::Refused { number: 7, line: 0, column: 0 });
}
