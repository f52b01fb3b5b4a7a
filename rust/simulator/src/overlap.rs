//! R-8 by force: with needs chosen afresh for each job, in every tick no more
//! than `level` jobs of a node run, and job j does not start before job j less
//! `level` has finished.

use crate::schedule::Schedule;
use crate::table::{Node, Table};
use std::collections::HashMap;
use std::ops::AddAssign;

/// What was looked at, so that a caller can tell a check of nothing.
#[derive(Clone, Copy, Debug, Default, PartialEq, Eq)]
pub struct Looked {
    /// Ticks in which several jobs of one node ran.
    pub overlaps: u64,
    /// Starts of jobs that have one `level` numbers before them.
    pub starts: u64,
}

impl AddAssign for Looked {
    fn add_assign(&mut self, other: Looked) {
        self.overlaps += other.overlaps;
        self.starts += other.starts;
    }
}

/// A job, by the numbers of its graph, its node and itself.
type JobName = (u32, u32, u32);

/// Goes through the ticks before `end`, and knows nothing of a stop. `needs`
/// picks a job's need from its budget.
pub fn check(table: &Table, end: u32, needs: impl FnMut(u32) -> u32) -> Result<Looked, String> {
    check_levels(table, |node| node.level, end, needs)
}

/// The same, with the levels that the jobs are held to given apart from those
/// of the table, so that a test can see it fail.
pub fn check_levels(
    table: &Table,
    level_of: impl Fn(&Node) -> u32,
    end: u32,
    needs: impl FnMut(u32) -> u32,
) -> Result<Looked, String> {
    let mut schedule = Schedule::new(table, needs);
    let mut ran: HashMap<JobName, u32> = HashMap::new();
    let mut looked = Looked::default();
    for instant in 0..end {
        schedule.finish(instant);
        schedule.release(instant);
        for (graph, node, jobs) in jobs_running(&mut schedule, &mut ran) {
            let level = level_of(&table.graphs[graph as usize - 1].nodes[node as usize - 1]);
            looked += judge(&schedule, instant, (graph, node), level, &jobs)?;
        }
    }
    Ok(looked)
}

/// A job that runs in a tick: its number, and whether it is its first tick.
struct Running {
    number: u32,
    starts: bool,
}

/// Runs a tick, and gives the jobs that run in it, by node: those that the
/// server job they are linked to gave a tick. `ran` has the ticks of each job.
fn jobs_running<Needs: FnMut(u32) -> u32>(
    schedule: &mut Schedule<Needs>,
    ran: &mut HashMap<JobName, u32>,
) -> Vec<(u32, u32, Vec<Running>)> {
    let mut nodes: Vec<(u32, u32, Vec<Running>)> = Vec::new();
    let linked: Vec<_> = schedule.run().iter().filter(|run| run.invocation != 0).copied().collect();
    for run in linked {
        let gained = schedule.graph(run.graph as usize - 1)[run.node as usize - 1].job(run.invocation).gained;
        let before = ran.insert((run.graph, run.node, run.invocation), gained).unwrap_or(0);
        if gained == before {
            continue;
        }
        let job = Running { number: run.invocation, starts: before == 0 };
        match nodes.iter_mut().find(|(graph, node, _)| (*graph, *node) == (run.graph, run.node)) {
            Some((_, _, jobs)) => jobs.push(job),
            None => nodes.push((run.graph, run.node, vec![job])),
        }
    }
    nodes
}

/// Both sentences of R-8, of one node in the tick at `instant`.
fn judge<Needs: FnMut(u32) -> u32>(
    schedule: &Schedule<Needs>,
    instant: u32,
    (graph, node): (u32, u32),
    level: u32,
    jobs: &[Running],
) -> Result<Looked, String> {
    if jobs.len() > level as usize {
        return Err(format!("{} jobs of node {graph},{node} run in the tick at {instant}", jobs.len()));
    }
    let mut looked = Looked { overlaps: u64::from(jobs.len() > 1), starts: 0 };
    for job in jobs.iter().filter(|job| job.starts && job.number > level) {
        let earlier = schedule.graph(graph as usize - 1)[node as usize - 1].job(job.number - level);
        if earlier.finished.is_none_or(|finished| finished > instant) {
            return Err(format!(
                "job {} of node {graph},{node} starts at {instant}, before job {} has finished",
                job.number,
                job.number - level
            ));
        }
        looked.starts += 1;
    }
    Ok(looked)
}
