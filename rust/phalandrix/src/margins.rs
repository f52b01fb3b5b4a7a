//! Margins: the report of a table against the age limit of each graph.

use crate::calls::Answer;
use crate::refusal::{MARGIN_BYTES, Refusal};
use crate::text::Text;
use core::fmt;

/// What a call for margins returns: number, line, column and `in_limits` 0 and the length of the text; or the
/// number of a refusal, its line and column, and length 0.
#[repr(C)]
#[derive(Clone, Copy, Debug, PartialEq, Eq)]
#[must_use = "it may be a refusal"]
pub struct MarginAnswer {
    /// 0 where the question was answered, else the number of the refusal.
    pub number: u32,
    /// The line that is refused, of the table or of the limit text; or 0.
    pub line: u32,
    /// The column at fault in that line, counted in bytes from 1; or 0.
    pub column: u32,
    /// 1 where the refusal is of the limit text, 0 else.
    pub in_limits: u32,
    /// The bytes of text written.
    pub length: usize,
}

unsafe extern "C" {
    fn phalandrix_margin(
        table: *const u8,
        table_len: usize,
        limits: *const u8,
        limits_len: usize,
        buffer: *mut u8,
        buffer_len: usize,
    ) -> MarginAnswer;
}

/// The report of a table with a line `margin=` after each `response=`, the limit less the response, written at
/// the beginning of the lent buffer. The limits are a text with one line `limit=` per graph. The rest of the
/// buffer is left as it was, and on refusal all of it.
pub fn margin(table: &[u8], limits: &[u8], buffer: &mut [u8]) -> MarginAnswer {
    // SAFETY: each pointer comes with the length of its own slice, the slices live through the call and the
    // buffer overlaps neither of the others, and the library keeps none of the pointers.
    unsafe {
        phalandrix_margin(
            table.as_ptr(),
            table.len(),
            limits.as_ptr(),
            limits.len(),
            buffer.as_mut_ptr(),
            buffer.len(),
        )
    }
}

/// A refusal of the table, or one of the limit text with line and column in that text.
#[derive(Clone, Copy, Debug, PartialEq, Eq, Hash)]
#[non_exhaustive]
pub enum MarginRefusal {
    /// Of the table.
    Table(Refusal),
    /// Of the limit text.
    Limits(Refusal),
}

/// The margins of a table; shown, they are their text.
#[derive(Clone, Copy)]
#[must_use]
pub struct Margins(Text<MARGIN_BYTES>);

/// The margins of a table against its limits: each is zero or more exactly when no invocation within budgets
/// can ever break the limit.
///
/// # Errors
///
/// The table's own refusals first, then 1, 2 and 3 of the limit text; not 10, since there is room for every
/// text.
pub fn margins_of(table: &[u8], limits: &[u8]) -> Result<Margins, MarginRefusal> {
    let mut in_limits = 0;
    let text = Text::written(|buffer| {
        let answer = margin(table, limits, buffer);
        in_limits = answer.in_limits;
        Answer { number: answer.number, line: answer.line, column: answer.column, length: answer.length }
    });
    match text {
        Ok(text) => Ok(Margins(text)),
        Err(refusal) if in_limits == 1 => Err(MarginRefusal::Limits(refusal)),
        Err(refusal) => Err(MarginRefusal::Table(refusal)),
    }
}

impl Margins {
    /// Their text, as the program prints it.
    #[must_use]
    pub fn as_str(&self) -> &str {
        self.0.as_str()
    }

    /// For each graph in order the ticks that an invocation takes at most, from its release.
    pub fn responses(&self) -> impl Iterator<Item = u32> {
        self.0.numbers("response").map(|[response]| response)
    }

    /// For each graph in order its limit less its response.
    pub fn margins(&self) -> impl Iterator<Item = i64> {
        let lines = self.as_str().lines().filter_map(|line| line.strip_prefix("margin="));
        lines.map(|margin| margin.parse().expect("a number"))
    }
}

impl fmt::Display for MarginRefusal {
    fn fmt(&self, out: &mut fmt::Formatter) -> fmt::Result {
        match self {
            MarginRefusal::Table(refusal) => write!(out, "{refusal}"),
            MarginRefusal::Limits(refusal) => write!(out, "in the limit text: {refusal}"),
        }
    }
}

impl core::error::Error for MarginRefusal {}

impl fmt::Display for Margins {
    fn fmt(&self, out: &mut fmt::Formatter) -> fmt::Result {
        out.write_str(self.as_str())
    }
}

impl fmt::Debug for Margins {
    fn fmt(&self, out: &mut fmt::Formatter) -> fmt::Result {
        out.debug_tuple("Margins").field(&self.as_str()).finish()
    }
}
