//! The row at an instant as a value.

use crate::calls::row;
use crate::refusal::{ROW_BYTES, Refusal};
use crate::text::Text;
use core::fmt;

/// The server jobs that run in one tick; shown, it is its text.
#[derive(Clone, Copy)]
#[must_use]
pub struct Row {
    text: Text<ROW_BYTES>,
    walked: u32,
}

/// A server job that runs.
#[derive(Clone, Copy, Debug, PartialEq, Eq)]
#[non_exhaustive]
pub struct Run {
    /// Its graph, from 1.
    pub graph: u32,
    /// Its node in that graph, from 1.
    pub node: u32,
    /// Its own number among the node's server jobs, from 1.
    pub server_job: u32,
    /// The invocation that it serves; none where it is not linked.
    pub invocation: Option<u32>,
}

/// The row of a table at an instant: what runs in the tick that starts there. Where the schedule repeats,
/// there is a row at every instant up to 4,000,000,000; else before the stop of the walk.
///
/// # Errors
///
/// Any refusal but 7 and 8, which are for reports, and 10, since there is room for every row.
pub fn row_at(table: &[u8], instant: u64) -> Result<Row, Refusal> {
    let mut walked = 0;
    let text = Text::written(|buffer| {
        let told = row(table, instant, buffer);
        walked = told.walked;
        told.answer()
    })?;
    Ok(Row { text, walked })
}

impl Row {
    /// Its text, as the program prints it.
    #[must_use]
    pub fn as_str(&self) -> &str {
        self.text.as_str()
    }

    /// The ticks that the rules walk for it from tick 0: the smaller of the instant asked and the stop.
    #[must_use]
    pub fn walked(&self) -> u32 {
        self.walked
    }

    /// The running server jobs in priority order.
    pub fn runs(&self) -> impl Iterator<Item = Run> {
        self.text.numbers("run").map(|[graph, node, server_job, invocation]| Run {
            graph,
            node,
            server_job,
            invocation: (invocation > 0).then_some(invocation),
        })
    }
}

impl fmt::Display for Row {
    fn fmt(&self, out: &mut fmt::Formatter) -> fmt::Result {
        out.write_str(self.as_str())
    }
}

impl fmt::Debug for Row {
    fn fmt(&self, out: &mut fmt::Formatter) -> fmt::Result {
        out.debug_tuple("Row").field(&self.as_str()).finish()
    }
}
