//! Demand 3 by force: the figures of a settled walk against schedules in
//! which each job needs a number of ticks chosen afresh, from 1 to its budget,
//! over several hyperperiods past the stop; and, with whole budgets, an
//! invocation finished by the printed ticks that takes exactly the figure.

use crate::schedule::{Schedule, release_instant};
use crate::table::Table;
use crate::walk::{Stop, Walk};

/// What was looked at, so that a caller can tell a check of nothing.
#[derive(Clone, Copy, Debug, Default, PartialEq, Eq)]
pub struct Looked {
    pub invocations: u64,
    pub attained: u64,
}

/// Checks both halves. `needs` picks a job's need from its budget; the walk
/// goes on for `past` hyperperiods past the stop. A walk that is not settled
/// gives no figure, so there is nothing to check.
pub fn check(
    table: &Table,
    hyperperiod: u32,
    walk: &Walk,
    past: u32,
    needs: impl FnMut(u32) -> u32,
) -> Result<Looked, String> {
    if !matches!(walk.stop, Stop::Settled { .. }) {
        return Ok(Looked::default());
    }
    let end = walk.ticks + past * hyperperiod;
    let by_need = schedule_until(table, end, needs);
    let whole = schedule_until(table, end, |budget| budget);
    let mut looked = Looked::default();
    for (index, &figure) in walk.figures.iter().enumerate() {
        looked.invocations += never_above(table, &by_need, index, figure, end)?;
        looked.invocations += never_above(table, &whole, index, figure, end)?;
        if !is_attained(table, &whole, index, figure, walk.ticks) {
            return Err(format!("no invocation of graph {} takes its figure {figure}", index + 1));
        }
        looked.attained += 1;
    }
    Ok(looked)
}

/// The schedule with all work up to `end` finished, and no tests for a stop.
fn schedule_until<Needs: FnMut(u32) -> u32>(table: &Table, end: u32, needs: Needs) -> Schedule<'_, Needs> {
    let mut schedule = Schedule::new(table, needs);
    for instant in 0..end {
        schedule.finish(instant);
        schedule.release(instant);
        schedule.run();
    }
    schedule.finish(end);
    schedule
}

/// Every invocation finishes within the figure; one not finished by `end` is
/// counted as if it finished there, which is the least it can take. Gives how
/// many invocations there were.
fn never_above<Needs: FnMut(u32) -> u32>(
    table: &Table,
    schedule: &Schedule<Needs>,
    index: usize,
    figure: u32,
    end: u32,
) -> Result<u64, String> {
    let jobs = schedule.sink(index).jobs();
    for (number, job) in (1..).zip(jobs) {
        let response = job.finished.unwrap_or(end) - release_instant(&table.graphs[index], number);
        if response > figure {
            return Err(format!(
                "invocation {number} of graph {} takes {response}, above the figure {figure}",
                index + 1
            ));
        }
    }
    Ok(jobs.len() as u64)
}

/// Some invocation finished at or before `ticks` takes exactly the figure.
fn is_attained<Needs: FnMut(u32) -> u32>(
    table: &Table,
    schedule: &Schedule<Needs>,
    index: usize,
    figure: u32,
    ticks: u32,
) -> bool {
    (1..).zip(schedule.sink(index).jobs()).any(|(number, job)| {
        job.finished.is_some_and(|finished| {
            finished <= ticks && finished - release_instant(&table.graphs[index], number) == figure
        })
    })
}
