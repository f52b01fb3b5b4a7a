//! Several tables in one call: document 02, R-1.

use crate::limits;
use crate::question::report;
use crate::reply::{Answer, lend};

/// What a call on several tables returns: number, line and column 0 and an answer for each table;
/// or refusal 11 and no answer.
#[derive(Clone, Debug, PartialEq, Eq)]
pub struct Batch {
    pub number: u32,
    pub line: u32,
    pub column: u32,
    pub answers: Vec<Answer>,
}

/// The tables end to end, with a list of their lengths; the buffer is cut into equal shares, one per
/// table, and any remainder at the end is unchanged.
pub fn batch(tables: &[u8], lengths: &[usize], buffer: &mut [u8]) -> Batch {
    let total: u128 = lengths.iter().map(|&length| length as u128).sum();
    let count = u32::try_from(lengths.len()).unwrap_or(u32::MAX);
    if !limits::TABLES.holds(count) || total != tables.len() as u128 {
        return Batch { number: 11, line: 0, column: 0, answers: Vec::new() };
    }
    let share = buffer.len() / lengths.len();
    let mut rest = tables;
    let mut answers = Vec::new();
    for (i, &length) in lengths.iter().enumerate() {
        let (table, behind) = rest.split_at(length);
        rest = behind;
        answers.push(lend(&report(table), &mut buffer[i * share..(i + 1) * share]));
    }
    Batch { number: 0, line: 0, column: 0, answers }
}
