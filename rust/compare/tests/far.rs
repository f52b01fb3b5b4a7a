//! rows past the stop, by the second simulator's shift, against its own plain walk that goes on.

use generator::make;
use simulator::question::{Answered, judge};
use simulator::schedule::Schedule;
use simulator::walk::{Stop, walk};
use simulator::{Reply, Table, limits, text};

/// Tables whose stop and hyperperiod come early enough to be walked on.
const SHORT: u32 = 400;

/// Settled tables of some seeds, with their hyperperiod and stop.
fn settled() -> impl Iterator<Item = (Vec<u8>, Table, u32, u32)> {
    (5_000_000..5_001_500).filter_map(|seed| {
        let bytes = make(seed).text;
        let (table, hyperperiod) = judge(&bytes).ok()?;
        let walk = walk(&table, hyperperiod, |_, _| ());
        let short = walk.ticks <= SHORT && matches!(walk.stop, Stop::Settled { .. });
        short.then_some((bytes, table, hyperperiod, walk.ticks))
    })
}

#[test]
fn the_shift_gives_the_rows_of_a_walk_that_goes_on() {
    let (mut tables, mut rows) = (0, 0);
    for (bytes, table, hyperperiod, stop) in settled() {
        let answered = Answered::new(&bytes);
        let mut schedule = Schedule::new(&table, |budget| budget);
        for instant in 0..stop + 3 * hyperperiod {
            schedule.finish(instant);
            schedule.release(instant);
            let row = text::row(schedule.run());
            assert_eq!(answered.row(u64::from(instant)), Reply::Text(row), "{instant}");
            assert_eq!(answered.ticks_to(u64::from(instant)), instant.min(stop));
            rows += u32::from(instant >= stop);
        }
        tables += 1;
    }
    assert!(tables > 200 && rows > 20_000, "{tables} tables, {rows} rows");
}

/// From the last round on no server job runs unlinked, so that 0 has nothing to stay for.
#[test]
fn from_the_last_round_on_every_server_job_is_linked() {
    for (bytes, _, hyperperiod, stop) in settled() {
        let answered = Answered::new(&bytes);
        for instant in stop - hyperperiod..stop + hyperperiod {
            let Reply::Text(row) = answered.row(u64::from(instant)) else { panic!("a row") };
            assert!(!String::from_utf8_lossy(&row).contains(",0\n"), "{instant}");
        }
    }
}

#[test]
fn the_last_instant_has_a_row_and_the_next_has_none() {
    for (bytes, ..) in settled() {
        let answered = Answered::new(&bytes);
        assert!(matches!(answered.row(limits::INSTANT), Reply::Text(_)));
        assert_eq!(answered.row(limits::INSTANT + 1), Reply::Refused { number: 9, line: 0, column: 0 });
    }
}
