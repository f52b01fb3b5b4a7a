//! The state at a boundary, formed as document 01 writes it.

use crate::history::NodeHistory;
use crate::schedule::Schedule;
use crate::table::{Graph, Table};

/// The state after the ticks before an instant and before its releases.
#[derive(Clone, Debug, PartialEq, Eq)]
pub struct State {
    graphs: Vec<GraphState>,
}

#[derive(Clone, Debug, PartialEq, Eq)]
struct GraphState {
    /// The phase in the graph's period.
    phase: u32,
    nodes: Vec<NodeState>,
}

#[derive(Clone, Debug, PartialEq, Eq)]
struct NodeState {
    /// Invocations released less jobs finished.
    unfinished: u32,
    /// Invocations released less jobs linked.
    unlinked: u32,
    /// The pending server jobs, in order.
    pending: Vec<Pending>,
}

#[derive(Clone, Debug, PartialEq, Eq)]
struct Pending {
    budget_left: u32,
    /// Where linked, by how many numbers the job lies behind its server job.
    behind: Option<u32>,
}

impl State {
    /// The state at `instant`, which must lie at or past every offset and be
    /// finished but not released in the schedule.
    pub fn at<Needs: FnMut(u32) -> u32>(table: &Table, schedule: &Schedule<Needs>, instant: u32) -> State {
        let of_graph = |(index, graph): (usize, &Graph)| GraphState {
            phase: (instant - graph.offset) % graph.period,
            nodes: graph
                .nodes
                .iter()
                .zip(schedule.graph(index))
                .map(|(node, history)| node_state(history, node.budget))
                .collect(),
        };
        State { graphs: table.graphs.iter().enumerate().map(of_graph).collect() }
    }
}

fn node_state(history: &NodeHistory, budget: u32) -> NodeState {
    // Every invocation released so far has its job in the history.
    let released = history.jobs().len() as u32;
    let of_server_job = |number: u32| {
        let server_job = history.server_job(number);
        Pending { budget_left: budget - server_job.used, behind: server_job.linked.map(|job| number - job) }
    };
    NodeState {
        unfinished: released - history.finished_count(),
        unlinked: released - history.linked(),
        pending: history.pending().map(of_server_job).collect(),
    }
}
