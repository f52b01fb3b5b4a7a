//! The walk to its stop, or to an instant asked for.

use crate::engine::Engine;
use crate::table::Table;
use crate::window::Server;

/// Where the walk ended.
pub enum End {
    Settled {
        round: u32,
    },
    Unsettled,
    Backlog,
    /// At the instant asked for, with what runs chosen.
    Asked,
}

/// Walks to the stop, or to `asked` if that comes before it. With `JUMP` a
/// step goes to the next event, else it is one tick.
pub fn walk<const JUMP: bool>(engine: &mut Engine, hyperperiod: u32, asked: Option<u32>) -> End {
    let mut boundaries = Boundaries::new(engine.table, hyperperiod);
    loop {
        engine.finish();
        if engine.now == boundaries.next
            && let Some(end) = boundaries.test(engine)
        {
            return end;
        }
        if !engine.release() {
            return End::Backlog;
        }
        engine.choose();
        if asked == Some(engine.now) {
            return End::Asked;
        }
        // Each boundary is a release of the graph with the largest offset, so
        // that no jump passes one.
        let to_asked = asked.map_or(u32::MAX, |asked| asked - engine.now);
        let distance = if JUMP { engine.distance().min(to_asked) } else { 1 };
        engine.spend(distance);
    }
}

/// The next boundary, and the servers at the one before.
struct Boundaries {
    next: u32,
    round: u32,
    rounds: u32,
    hyperperiod: u32,
    before: [Server; Table::NODES],
}

impl Boundaries {
    fn new(table: &Table, hyperperiod: u32) -> Boundaries {
        Boundaries {
            next: table.largest_offset(),
            round: 0,
            rounds: table.rounds,
            hyperperiod,
            before: [Server::empty(); Table::NODES],
        }
    }

    /// The phases need no look: at all boundaries they are the same.
    fn test(&mut self, engine: &Engine) -> Option<End> {
        let nodes = engine.table.node_count;
        let servers = &engine.servers[..nodes];
        let same = servers.iter().zip(&self.before[..nodes]).all(|(now, before)| now.same(before));
        if self.round > 0 && same {
            return Some(End::Settled { round: self.round });
        }
        if self.round == self.rounds {
            return Some(End::Unsettled);
        }
        self.before[..nodes].copy_from_slice(servers);
        self.round += 1;
        self.next += self.hyperperiod;
        None
    }
}
