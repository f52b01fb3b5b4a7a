//! the row at or past the stop of a settled walk is that of the matching
//! instant of the last round walked, with numbers moved on by the periods
//! passed.

use crate::limits;
use crate::schedule::Run;
use crate::table::Table;
use crate::walk::{Stop, Walk};

/// Which row of a walk is shown at an instant, and how many hyperperiods
/// later; none where 9 is due.
#[derive(Clone, Copy, Debug, PartialEq, Eq)]
pub struct Match {
    pub instant: u64,
    pub passed: u64,
}

/// An instant before the stop matches itself. Past the stop of a settled walk
/// it is the one in the last hyperperiod before the stop that lies whole
/// hyperperiods earlier.
pub fn matching(walk: &Walk, hyperperiod: u32, instant: u64) -> Option<Match> {
    if instant > limits::INSTANT {
        return None;
    }
    let (stop, hyperperiod) = (u64::from(walk.ticks), u64::from(hyperperiod));
    if instant < stop {
        return Some(Match { instant, passed: 0 });
    }
    if !matches!(walk.stop, Stop::Settled { .. }) {
        return None;
    }
    let passed = (instant - stop) / hyperperiod + 1;
    Some(Match { instant: instant - passed * hyperperiod, passed })
}

/// A row so many hyperperiods later; invocation 0 stays 0.
pub fn moved_on(table: &Table, hyperperiod: u32, running: &[Run], passed: u64) -> Vec<Run> {
    let later = |run: &Run| {
        let periods = u64::from(hyperperiod / table.graphs[run.graph as usize - 1].period);
        let by = u32::try_from(passed * periods).expect("no more periods than ticks");
        let invocation = if run.invocation == 0 { 0 } else { run.invocation + by };
        Run { server_job: run.server_job + by, invocation, ..*run }
    };
    running.iter().map(later).collect()
}
