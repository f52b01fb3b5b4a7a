//! R-12, written from document 02 alone: the report, with a line `margin=` after each `response=`.

use crate::question::judge;
use crate::reader::read_limits;
use crate::reply::{Refusal, Reply};
use crate::walk::{Stop, walk};

/// The reply, and whether it is a refusal of the limit text.
#[derive(Clone, Debug, PartialEq, Eq)]
pub struct Margin {
    pub reply: Reply,
    pub in_limits: bool,
}

/// The table's own refusals come first, 7, 8 and 12 included; then those of the limit text.
pub fn margin(table: &[u8], limits: &[u8]) -> Margin {
    match settled(table) {
        Err(refusal) => Margin { reply: refusal.into(), in_limits: false },
        Ok((round, ticks, figures)) => match read_limits(limits, figures.len()) {
            Err(refusal) => Margin { reply: refusal.into(), in_limits: true },
            Ok(ages) => Margin { reply: Reply::Text(text(round, ticks, &figures, &ages)), in_limits: false },
        },
    }
}

/// Round, ticks and figures of a table that settles.
fn settled(table: &[u8]) -> Result<(u32, u32, Vec<u32>), Refusal> {
    let (table, hyperperiod) = judge(table)?;
    let walk = walk(&table, hyperperiod, |_, _| ());
    match walk.stop {
        Stop::Backlog => Err(Refusal { number: 7, line: 0, column: 0 }),
        Stop::Unsettled => Err(Refusal { number: 8, line: 0, column: 0 }),
        Stop::Settled { round } => Ok((round, walk.ticks, walk.figures)),
    }
}

/// The limit less the response: a whole number that may be below zero.
fn text(round: u32, ticks: u32, figures: &[u32], ages: &[u32]) -> Vec<u8> {
    let mut text = format!("answer=0\nround={round}\nticks={ticks}\n");
    for (&response, &limit) in figures.iter().zip(ages) {
        let margin = i64::from(limit) - i64::from(response);
        text += &format!("response={response}\nmargin={margin}\n");
    }
    text.into_bytes()
}
