//! The report as a value.

use crate::calls::report;
use crate::refusal::{REPORT_BYTES, Refusal};
use crate::text::Text;
use core::fmt;

/// The report of a table; shown, it is its text.
#[derive(Clone, Copy)]
#[must_use]
pub struct Report(Text<REPORT_BYTES>);

/// The report of a table.
///
/// # Errors
///
/// Any refusal but 9, which is for rows, and 10, since there is room for every report.
pub fn report_of(table: &[u8]) -> Result<Report, Refusal> {
    Text::written(|buffer| report(table, buffer)).map(Report)
}

impl Report {
    /// Its text, as the program prints it.
    #[must_use]
    pub fn as_str(&self) -> &str {
        self.0.as_str()
    }

    /// How many hyperperiods after the largest offset the schedule was seen to repeat.
    #[must_use]
    pub fn round(&self) -> u32 {
        self.one("round")
    }

    /// The ticks walked until then.
    #[must_use]
    pub fn ticks(&self) -> u32 {
        self.one("ticks")
    }

    /// For each graph in order the ticks that an invocation takes at most, from its release.
    pub fn responses(&self) -> impl Iterator<Item = u32> {
        self.0.numbers("response").map(|[response]| response)
    }

    fn one(&self, key: &'static str) -> u32 {
        let [number] = self.0.numbers(key).next().expect("a report has the line");
        number
    }
}

impl fmt::Display for Report {
    fn fmt(&self, out: &mut fmt::Formatter) -> fmt::Result {
        out.write_str(self.as_str())
    }
}

impl fmt::Debug for Report {
    fn fmt(&self, out: &mut fmt::Formatter) -> fmt::Result {
        out.debug_tuple("Report").field(&self.as_str()).finish()
    }
}
