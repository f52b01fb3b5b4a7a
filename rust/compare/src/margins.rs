//! Margins: the margins of each table against limit texts of its own, by the library and by the second
//! simulator, with every byte around the lent buffer.

use crate::library::Library;
use generator::{Rng, limit_text};
use simulator::{Answer, Margin, Reply, lend, margin};
use std::fmt;
use std::ops::AddAssign;

/// How often the call came to each number, of the table and of the limit text, and how many margins were
/// at zero, above and below; nothing where the library has no such call.
#[derive(Clone, Debug, Default, PartialEq, Eq)]
pub struct Margins {
    pub of_table: [u64; 13],
    pub of_limits: [u64; 4],
    pub signs: [u64; 3],
}

/// The numbers that the call can give of each text.
const OF_TABLE: [usize; 10] = [0, 1, 2, 3, 4, 5, 6, 8, 10, 12];
const OF_LIMITS: [usize; 3] = [1, 2, 3];
const SIGNS: [&str; 3] = ["zero", "above zero", "below zero"];

impl Margins {
    /// The outcomes that never came up, where there is such a call at all. Refusal 7 is as rare as in reports.
    pub fn missing(&self) -> Vec<String> {
        if *self == Margins::default() {
            return Vec::new();
        }
        let table = OF_TABLE.map(|number| (format!("margins that give {number}"), self.of_table[number]));
        let limits = OF_LIMITS.map(|number| (format!("limits that give {number}"), self.of_limits[number]));
        let signs = [0, 1, 2].map(|sign| (format!("a margin {}", SIGNS[sign]), self.signs[sign]));
        let all = table.into_iter().chain(limits).chain(signs);
        all.filter(|(_, count)| *count == 0).map(|(outcome, _)| outcome).collect()
    }
}

impl AddAssign<&Margins> for Margins {
    fn add_assign(&mut self, other: &Margins) {
        self.of_table.iter_mut().zip(other.of_table).for_each(|(to, from)| *to += from);
        self.of_limits.iter_mut().zip(other.of_limits).for_each(|(to, from)| *to += from);
        self.signs.iter_mut().zip(other.signs).for_each(|(to, from)| *to += from);
    }
}

impl fmt::Display for Margins {
    fn fmt(&self, out: &mut fmt::Formatter) -> fmt::Result {
        let calls = self.of_table.iter().chain(&self.of_limits).sum::<u64>();
        let [zero, above, below] = self.signs;
        write!(out, "{calls} calls for margins, {zero} margins zero, {above} above, {below} below")
    }
}

/// Limit texts for each table.
const TEXTS: usize = 3;

/// Bytes on both sides of a lent buffer that no call may touch.
const GUARD: usize = 24;

/// The calls on one table; what differs, in words.
pub fn check(library: &dyn Library, table: &[u8], report: &Reply, rng: &mut Rng) -> Result<Margins, String> {
    let mut seen = Margins::default();
    if library.margin(table, b"", &mut []).is_none() {
        return Ok(seen);
    }
    let figures = figures(report);
    for _ in 0..TEXTS {
        let limits = limit_text(&figures, rng);
        let expected = margin(table, &limits);
        let rooms = match &expected.reply {
            Reply::Text(text) => vec![text.len(), text.len() - 1, text.len() + 30, rng.below(text.len() + 3)],
            Reply::Refused { .. } => vec![0, 400],
        };
        for room in rooms {
            call(library, table, &limits, &expected, room, &mut seen)?;
        }
        count_signs(&expected.reply, &mut seen);
    }
    Ok(seen)
}

/// The responses of a report; of a refused table one of any size.
fn figures(report: &Reply) -> Vec<u32> {
    let Reply::Text(text) = report else { return vec![6] };
    let text = String::from_utf8_lossy(text);
    text.lines().filter_map(|line| line.strip_prefix("response=")?.parse().ok()).collect()
}

fn count_signs(reply: &Reply, seen: &mut Margins) {
    let Reply::Text(text) = reply else { return };
    for line in String::from_utf8_lossy(text).lines() {
        match line.strip_prefix("margin=") {
            None => (),
            Some("0") => seen.signs[0] += 1,
            Some(margin) => seen.signs[1 + usize::from(margin.starts_with('-'))] += 1,
        }
    }
}

/// One call, with every byte of its buffer and around it.
fn call(
    library: &dyn Library,
    table: &[u8],
    limits: &[u8],
    expected: &Margin,
    room: usize,
    seen: &mut Margins,
) -> Result<(), String> {
    let fresh: Vec<u8> = (0..room + 2 * GUARD).map(|at| 0x80 | (at as u8).wrapping_mul(37)).collect();
    let (mut left, mut got) = (fresh.clone(), fresh);
    let told = lend(&expected.reply, &mut left[GUARD..GUARD + room]);
    let answer = library.margin(table, limits, &mut got[GUARD..GUARD + room]);
    let in_limits = expected.in_limits;
    if answer != Some((told, in_limits)) || got != left {
        let limits = limits.escape_ascii();
        return Err(format!(
            "margins against \"{limits}\" into {room} bytes give {answer:?}, should be {told:?}, {in_limits}"
        ));
    }
    let Answer { number, .. } = told;
    if in_limits {
        seen.of_limits[number as usize] += 1
    } else {
        seen.of_table[number as usize] += 1
    }
    Ok(())
}
