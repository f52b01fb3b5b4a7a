//! The hyperperiod, the load, and whether each node keeps up: refusals 5, 6
//! and 12.

use crate::limits;
use crate::reply::Refusal;
use crate::table::Table;

/// The hyperperiod of a table that passes 5, 6 and 12, in that order.
pub fn judge(table: &Table) -> Result<u32, Refusal> {
    let hyperperiod = hyperperiod(table);
    if hyperperiod > u128::from(limits::HYPERPERIOD) {
        return Err(Refusal { number: 5, line: 0, column: 0 });
    }
    if load(table, hyperperiod) > u128::from(table.processors) * hyperperiod {
        return Err(Refusal { number: 6, line: 0, column: 0 });
    }
    if !keeps_up(table) {
        return Err(Refusal { number: 12, line: 0, column: 0 });
    }
    Ok(hyperperiod as u32)
}

/// The least common multiple of the periods. Eight periods of at most 10^4
/// multiply to at most 10^32, which a u128 holds: nothing can wrap.
pub fn hyperperiod(table: &Table) -> u128 {
    table.graphs.iter().fold(1, |multiple, graph| {
        let period = u128::from(graph.period);
        multiple / greatest_common_divisor(multiple, period) * period
    })
}

/// The sum over all nodes of budget times H/period.
pub fn load(table: &Table, hyperperiod: u128) -> u128 {
    let of_graph = |graph: &crate::table::Graph| -> u128 {
        let budgets: u128 = graph.nodes.iter().map(|node| u128::from(node.budget)).sum();
        budgets * (hyperperiod / u128::from(graph.period))
    };
    table.graphs.iter().map(of_graph).sum()
}

/// Document 02, R-2: each node's budget is at most its level times its period.
pub fn keeps_up(table: &Table) -> bool {
    let each = |graph: &crate::table::Graph| {
        let most = |level: u32| u64::from(level) * u64::from(graph.period);
        graph.nodes.iter().all(|node| u64::from(node.budget) <= most(node.level))
    };
    table.graphs.iter().all(each)
}

fn greatest_common_divisor(first: u128, second: u128) -> u128 {
    if second == 0 { first } else { greatest_common_divisor(second, first % second) }
}
