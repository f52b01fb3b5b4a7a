//! The two calls with a lent buffer.

use crate::answer::Answer;
use crate::engine::Engine;
use crate::table::Table;
use crate::tuned::Tuned;
use crate::walk::{End, walk};
use crate::writer::{self, Run, Text};

/// The length of a step.
#[derive(Clone, Copy, Debug, PartialEq, Eq)]
pub enum Pace {
    Tick,
    Event,
    Tuned,
}

pub fn report(pace: Pace, table: &[u8], buffer: &mut [u8]) -> Answer {
    let (table, hyperperiod) = match judge(table) {
        Ok(judged) => judged,
        Err(refusal) => return refusal,
    };
    let (end, ticks, figures) = match pace {
        Pace::Tuned => {
            let mut tuned = Tuned::new(&table);
            let end = tuned.walk(table.largest_offset(), hyperperiod, None);
            (end, tuned.now, tuned.figures(&table))
        }
        _ => {
            let mut engine = Engine::new(&table);
            let end = walk_at(pace, &mut engine, hyperperiod, None);
            (end, engine.now, engine.figures)
        }
    };
    match end {
        End::Settled { round } => lend(&writer::report(round, ticks, &figures[..table.graph_count]), buffer),
        End::Unsettled => Answer::refusal(8),
        End::Backlog | End::Asked => Answer::refusal(7),
    }
}

/// The last instant at which there is a row.
const LAST_INSTANT: u64 = 4_000_000_000;

/// And the ticks walked, 0 for a refusal. Past the stop of a settled walk the table is walked again, to
/// the matching instant of the last round.
pub fn row(pace: Pace, table: &[u8], instant: u64, buffer: &mut [u8]) -> (Answer, u32) {
    let (table, hyperperiod) = match judge(table) {
        Ok(judged) => judged,
        Err(refusal) => return (refusal, 0),
    };
    let Some(asked) = u32::try_from(instant).ok().filter(|_| instant <= LAST_INSTANT) else {
        return (Answer::refusal(9), 0);
    };
    let (end, now, mut text) = row_at(pace, &table, hyperperiod, asked, 0);
    if matches!(end, End::Settled { .. }) {
        let passed = (asked - now) / hyperperiod + 1;
        text = row_at(pace, &table, hyperperiod, asked - passed * hyperperiod, passed).2;
    }
    let answer = text.map_or(Answer::refusal(9), |text| lend(&text, buffer));
    (answer, if answer.number == 0 { now } else { 0 })
}

/// How and when the walk to an instant ended, and, if it came there, the row, so many hyperperiods
/// later.
fn row_at(pace: Pace, table: &Table, hyperperiod: u32, asked: u32, passed: u32) -> (End, u32, Option<Text>) {
    let later = |run: Run| {
        let periods = hyperperiod / table.graphs[run.graph as usize - 1].period;
        run.moved_on(passed * periods)
    };
    if pace == Pace::Tuned {
        let mut tuned = Tuned::new(table);
        let end = tuned.walk(table.largest_offset(), hyperperiod, Some(asked));
        let text = matches!(end, End::Asked).then(|| writer::row(tuned.runs(table).map(later)));
        return (end, tuned.now, text);
    }
    let mut engine = Engine::new(table);
    let end = walk_at(pace, &mut engine, hyperperiod, Some(asked));
    let text = matches!(end, End::Asked).then(|| writer::row(engine.runs().map(later)));
    (end, engine.now, text)
}

fn walk_at(pace: Pace, engine: &mut Engine, hyperperiod: u32, asked: Option<u32>) -> End {
    match pace {
        Pace::Tick => walk::<false>(engine, hyperperiod, asked),
        Pace::Event | Pace::Tuned => walk::<true>(engine, hyperperiod, asked),
    }
}

/// Refusals 1 to 6 and 12.
fn judge(bytes: &[u8]) -> Result<(Table, u32), Answer> {
    let table = crate::reader::read(bytes)?;
    let hyperperiod = table.hyperperiod().ok_or(Answer::refusal(5))?;
    if !table.is_loadable(hyperperiod) {
        return Err(Answer::refusal(6));
    }
    if !table.keeps_up() {
        return Err(Answer::refusal(12));
    }
    Ok((table, hyperperiod))
}

/// Writes the text, or refuses with 10 and changes nothing.
fn lend(text: &Text, buffer: &mut [u8]) -> Answer {
    let text = text.bytes();
    match buffer.get_mut(..text.len()) {
        None => Answer::refusal(10),
        Some(part) => {
            part.copy_from_slice(text);
            Answer { number: 0, line: 0, column: 0, length: text.len() }
        }
    }
}
