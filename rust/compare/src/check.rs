//! All the calls made on one table.

use crate::call::{Difference, Question, difference};
use crate::library::Library;
use crate::outcomes::Numbers;
use generator::Rng;
use simulator::Reply;
use simulator::limits::INSTANT;
use simulator::question::Answered;

/// How much is asked of the library for one table.
#[derive(Clone, Copy, Debug, PartialEq, Eq)]
pub struct Effort {
    /// Ticks the library may walk for the table, beyond a few calls that are
    /// always made.
    pub ticks: u64,
    /// Every instant below this is asked, if it is before the stop, and with
    /// them every instant far past it; if this is 0, only one of those is.
    pub first_instants: u64,
    /// Ticks that its plain engine may walk for the table, beyond one report.
    pub plain_ticks: u64,
}

impl Effort {
    /// For many tables.
    pub const USUAL: Effort = Effort { ticks: 12_000, first_instants: 0, plain_ticks: 2_000 };
    /// For the steps of shrinking one table.
    pub const SHRINKING: Effort = Effort { ticks: 100_000, first_instants: 300, plain_ticks: 100_000 };
}

/// What came of a table: how many calls of each number, those of the plain engine
/// apart, and the first difference.
pub struct Checked {
    pub report: Reply,
    pub calls: Numbers,
    /// Rows answered at or past the stop.
    pub far: u64,
    pub plain: Numbers,
    pub difference: Option<Difference>,
}

pub fn check(library: &dyn Library, table: &[u8], effort: Effort, rng: &mut Rng) -> Checked {
    let answered = Answered::new(table);
    let report = answered.report();
    let mut calls = Numbers::default();
    let mut first = None;
    let mut ask = |question, reply: &Reply, ticks, length| {
        if first.is_none() {
            calls[number(reply, length)] += 1;
            first = difference(library, table, question, (reply, ticks), length);
        }
    };
    let mut far = 0;
    let ticks = u64::from(answered.ticks().unwrap_or(0));
    let affordable = (effort.ticks / (ticks + 1)) as usize;
    for length in report_lengths(&report, affordable / 2, rng) {
        ask(Question::Report, &report, 0, length);
    }
    for instant in instants(answered.ticks(), affordable, effort, rng) {
        let reply = answered.row(instant);
        far += u64::from(instant >= ticks && matches!(reply, Reply::Text(_)));
        for length in lengths(&reply, rng) {
            ask(Question::Row(instant), &reply, answered.ticks_to(instant), length);
        }
    }
    let mut plain = Numbers::default();
    if let (Some(engine), None) = (library.plain(), &first) {
        first = check_plain(engine, table, &answered, effort, rng, &mut plain);
    }
    Checked { report, calls, far, plain, difference: first }
}

/// Questions to the plain engine, which goes tick by tick: the report, and as many
/// more as its ticks are enough for; and the first difference.
fn check_plain(
    engine: &dyn Library,
    table: &[u8],
    answered: &Answered,
    effort: Effort,
    rng: &mut Rng,
    calls: &mut Numbers,
) -> Option<Difference> {
    let ticks = u64::from(answered.ticks().unwrap_or(0));
    let mut left = effort.plain_ticks + ticks;
    let affordable = (effort.plain_ticks / (ticks + 1)) as usize;
    let rows = instants(answered.ticks(), affordable, effort, rng).into_iter().map(Question::Row);
    for question in [Question::Report].into_iter().chain(rows) {
        // A row past the stop is walked twice.
        let (reply, told, walked) = match question {
            Question::Report => (answered.report(), 0, ticks),
            Question::Row(instant) if instant < ticks => {
                (answered.row(instant), answered.ticks_to(instant), instant)
            }
            Question::Row(instant) => (answered.row(instant), answered.ticks_to(instant), 2 * ticks),
        };
        for length in lengths(&reply, rng) {
            if walked <= left {
                left -= walked;
                calls[number(&reply, length)] += 1;
                let found = difference(engine, table, question, (&reply, told), length);
                if found.is_some() {
                    return found;
                }
            }
        }
    }
    None
}

/// The number that a call with this buffer is answered with.
fn number(reply: &Reply, buffer_length: usize) -> usize {
    simulator::lend(reply, &mut vec![0; buffer_length]).number as usize
}

/// Every length from 0 to past the text's, or those next to it and some.
fn report_lengths(reply: &Reply, affordable: usize, rng: &mut Rng) -> Vec<usize> {
    let Reply::Text(text) = reply else { return vec![0, rng.below(300)] };
    let length = text.len();
    if length + 4 <= affordable {
        return (0..length + 4).collect();
    }
    vec![0, length - 1, length, length + 1, rng.below(length), length + rng.below(100)]
}

/// One long enough, and one that may be anything around the text's length; on
/// a refusal a short and a long one.
fn lengths(reply: &Reply, rng: &mut Rng) -> [usize; 2] {
    match reply {
        Reply::Text(text) => [text.len() + rng.pick(&[0, 1, 150]), rng.below(text.len() + 3)],
        Reply::Refused { .. } => [rng.below(4), 250],
    }
}

/// Instants at the ends of the walk, inside it, past its stop, and past the last one.
fn instants(ticks: Option<u32>, affordable: usize, effort: Effort, rng: &mut Rng) -> Vec<u64> {
    let Some(ticks) = ticks.map(u64::from) else { return vec![0, rng.draw()] };
    let far = [u64::MAX, 1 << 32, (1 << 32) + rng.draw() % (ticks + 1), 1 << 63, rng.draw(), INSTANT + 1];
    let past = [ticks + 1, ticks + rng.draw() % (ticks + 2), rng.draw() % INSTANT, INSTANT - 1, INSTANT];
    let mut instants = vec![0, ticks, rng.pick(&far), rng.pick(&past), rng.pick(&past)];
    instants.extend(ticks.checked_sub(1));
    if effort.first_instants > 0 {
        instants.extend(far);
        instants.extend(past);
        instants.extend(0..effort.first_instants.min(ticks));
    }
    let inside = if ticks == 0 { 0 } else { affordable.clamp(2, 24) };
    instants.extend((0..inside).map(|_| rng.draw() % ticks.max(1)));
    instants
}
