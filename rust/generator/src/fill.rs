//! Budgets that bring a table to a wanted load.

use crate::rng::Rng;
use simulator::Table;
use simulator::limits;

/// The hyperperiod of the table; the makers keep it within its limit.
pub fn hyperperiod(table: &Table) -> u32 {
    simulator::load::hyperperiod(table) as u32
}

/// The load, and the load that fills all processors.
pub fn load(table: &Table) -> (u64, u64) {
    let hyperperiod = simulator::load::hyperperiod(table);
    let load = simulator::load::load(table, hyperperiod) as u64;
    (load, u64::from(table.processors) * hyperperiod as u64)
}

/// Raises budgets at random nodes until the load is `wanted`, or as near
/// below it as the periods allow. `at_most` bounds each budget by its period
/// and level.
pub fn fill(rng: &mut Rng, table: &mut Table, wanted: u64, at_most: impl Fn(u32, u32) -> u32) {
    let hyperperiod = hyperperiod(table);
    let mut room = wanted.saturating_sub(load(table).0);
    // Random raises first, so that the load is spread; then whatever fits.
    for _ in 0..table.node_total() * 2 {
        let graph = rng.below(table.graphs.len());
        let node = rng.below(table.graphs[graph].nodes.len());
        room -= raise(rng, table, (graph, node), room, hyperperiod, &at_most, false);
    }
    for graph in 0..table.graphs.len() {
        for node in 0..table.graphs[graph].nodes.len() {
            room -= raise(rng, table, (graph, node), room, hyperperiod, &at_most, true);
        }
    }
}

/// Raises one node's budget within the room, by as much as fits or by a
/// random part of that, and gives the room it took.
fn raise(
    rng: &mut Rng,
    table: &mut Table,
    (graph, node): (usize, usize),
    room: u64,
    hyperperiod: u32,
    at_most: &impl Fn(u32, u32) -> u32,
    all: bool,
) -> u64 {
    let period = table.graphs[graph].period;
    let each = u64::from(hyperperiod / period);
    let node = &mut table.graphs[graph].nodes[node];
    let most = at_most(period, node.level).min(limits::BUDGET.to);
    let fits = (room / each).min(u64::from(most.saturating_sub(node.budget))) as u32;
    if fits == 0 {
        return 0;
    }
    let raise = if all { fits } else { rng.between(1, fits) };
    node.budget += raise;
    u64::from(raise) * each
}
