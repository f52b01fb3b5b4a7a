//! One server: its window of pending server jobs, oldest first.

use crate::table::Table;

/// A pending server job. `behind` is 0 when it is not linked.
#[derive(Clone, Copy, Default, PartialEq, Eq)]
pub struct Pending {
    pub left: u32,
    pub behind: u32,
    pub linked: bool,
}

/// A server with the counts of its node.
#[derive(Clone, Copy)]
pub struct Server {
    pub pending: [Pending; Table::PENDING],
    pub count: usize,
    /// Invocations released less jobs finished.
    pub unfinished: u32,
    /// Invocations released less jobs linked.
    pub unlinked: u32,
}

impl Server {
    pub fn empty() -> Server {
        Server { pending: [Pending::default(); Table::PENDING], count: 0, unfinished: 0, unlinked: 0 }
    }

    /// Takes the oldest server job, which is complete, out of the window, and
    /// finishes the job linked to it.
    pub fn take_oldest(&mut self) -> Pending {
        let oldest = self.pending[0];
        self.pending.copy_within(1..self.count, 0);
        self.count -= 1;
        self.unfinished -= u32::from(oldest.linked);
        oldest
    }

    /// Adds the server job released now; false if the window is full.
    pub fn push(&mut self, budget: u32, link: bool) -> bool {
        if self.count == Table::PENDING {
            return false;
        }
        // With u jobs unlinked, the newest invocation among them, the next
        // unlinked job lies u - 1 numbers behind.
        let behind = if link { self.unlinked - 1 } else { 0 };
        self.unlinked -= u32::from(link);
        self.pending[self.count] = Pending { left: budget, behind, linked: link };
        self.count += 1;
        true
    }

    /// The part of the state that document 01 compares at boundaries.
    pub fn same(&self, other: &Server) -> bool {
        self.unfinished == other.unfinished
            && self.unlinked == other.unlinked
            && self.pending[..self.count] == other.pending[..other.count]
    }
}
