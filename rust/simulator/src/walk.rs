//! The walk: each job needs its node's whole budget, and the walk goes on
//! until it is settled, unsettled, or stopped by backlog.

use crate::limits;
use crate::schedule::{Run, Schedule, release_instant};
use crate::state::State;
use crate::table::Table;

/// Why the walk stopped.
#[derive(Clone, Copy, Debug, PartialEq, Eq)]
pub enum Stop {
    Settled { round: u32 },
    Unsettled,
    Backlog,
}

/// A walk that came to its stop.
#[derive(Clone, Debug, PartialEq, Eq)]
pub struct Walk {
    pub stop: Stop,
    /// The instant of the stop.
    pub ticks: u32,
    /// Per graph, the largest response among its invocations finished at or
    /// before the stop; 0 if there is none, which a settled walk cannot have:
    /// equal states a hyperperiod apart mean that as many were finished in it
    /// as were released.
    pub figures: Vec<u32>,
}

/// Walks the table, and shows each tick before the stop to `watch`: the
/// instant it starts at and what runs, in priority order.
pub fn walk(table: &Table, hyperperiod: u32, mut watch: impl FnMut(u32, &[Run])) -> Walk {
    let mut schedule = Schedule::new(table, |budget| budget);
    let mut boundaries = Boundaries::new(table, hyperperiod);
    let mut instant = 0;
    loop {
        schedule.finish(instant);
        // At one instant the boundary test comes before the backlog test.
        let mut stop = boundaries.test(&schedule, instant);
        if stop.is_none() {
            schedule.release(instant);
            stop = has_backlog(table, &schedule).then_some(Stop::Backlog);
        }
        if let Some(stop) = stop {
            return Walk { stop, ticks: instant, figures: figures(table, &schedule) };
        }
        watch(instant, schedule.run());
        instant += 1;
    }
}

/// The boundaries, and the state at the one met last.
struct Boundaries<'a> {
    table: &'a Table,
    hyperperiod: u32,
    state_before: Option<State>,
}

impl<'a> Boundaries<'a> {
    fn new(table: &'a Table, hyperperiod: u32) -> Self {
        Boundaries { table, hyperperiod, state_before: None }
    }

    /// The k of the boundary at this instant, if there is one.
    fn at(&self, instant: u32) -> Option<u32> {
        let past = instant.checked_sub(self.table.largest_offset())?;
        past.is_multiple_of(self.hyperperiod).then(|| past / self.hyperperiod)
    }

    /// Settled or unsettled, if the walk stops at a boundary here.
    fn test<Needs: FnMut(u32) -> u32>(&mut self, schedule: &Schedule<Needs>, instant: u32) -> Option<Stop> {
        let round = self.at(instant)?;
        let state = State::at(self.table, schedule, instant);
        if self.state_before.as_ref() == Some(&state) {
            return Some(Stop::Settled { round });
        }
        self.state_before = Some(state);
        (round == self.table.rounds).then_some(Stop::Unsettled)
    }
}

/// After the releases and links of an instant, some server has more than 16
/// pending jobs or some graph more than 64 unfinished invocations.
fn has_backlog<Needs: FnMut(u32) -> u32>(table: &Table, schedule: &Schedule<Needs>) -> bool {
    (0..table.graphs.len()).any(|index| {
        let sink = schedule.sink(index);
        let unfinished = sink.jobs().len() - sink.finished_count() as usize;
        let crowded = schedule.graph(index).iter().any(|history| history.pending().count() > limits::PENDING);
        crowded || unfinished > limits::UNFINISHED
    })
}

fn figures<Needs: FnMut(u32) -> u32>(table: &Table, schedule: &Schedule<Needs>) -> Vec<u32> {
    let of_graph = |(index, graph)| {
        let responses = (1..).zip(schedule.sink(index).jobs()).filter_map(|(number, job)| {
            let finished = job.finished?;
            Some(finished - release_instant(graph, number))
        });
        responses.max().unwrap_or(0)
    };
    table.graphs.iter().enumerate().map(of_graph).collect()
}
