//! The refusals. Their list, `Reason`, and the sizes are made from include/phalandrix.h by the build
//! script.

use core::error::Error;
use core::fmt;

include!(concat!(env!("OUT_DIR"), "/header.rs"));

impl Reason {
    /// The refusal's number.
    #[must_use]
    pub const fn number(self) -> u32 {
        self as u32
    }

    /// The refusal of a number, if there is one.
    #[must_use]
    pub fn of_number(number: u32) -> Option<Reason> {
        Reason::ALL.iter().copied().find(|reason| reason.number() == number)
    }
}

/// A refused question: why, and at which line and column of the table.
#[derive(Clone, Copy, Debug, PartialEq, Eq, Hash)]
#[non_exhaustive]
pub struct Refusal {
    /// Why.
    pub reason: Reason,
    /// The line of the table, from 1; 0 where it is no line's fault.
    pub line: u32,
    /// The column at fault in that line, counted in bytes from 1; 0 where there is none.
    pub column: u32,
}

impl Refusal {
    pub(crate) fn new(number: u32, line: u32, column: u32) -> Refusal {
        let reason = Reason::of_number(number).expect("the library linked is that of the header");
        Refusal { reason, line, column }
    }

    /// The refusal with the table that it was given for: shown, it also has the line's text and a mark
    /// under the column.
    #[must_use]
    pub fn in_table(self, table: &[u8]) -> InTable<'_> {
        InTable { refusal: self, table }
    }
}

impl fmt::Display for Refusal {
    fn fmt(&self, out: &mut fmt::Formatter) -> fmt::Result {
        if self.line > 0 {
            write!(out, "line {}", self.line)?;
            if self.column > 0 {
                write!(out, ", column {}", self.column)?;
            }
            write!(out, ": ")?;
        }
        write!(out, "refusal {}: {}", self.reason.number(), self.reason.sentence())
    }
}

impl Error for Refusal {}

/// A refusal beside the table that it was given for.
#[derive(Clone, Copy, Debug, PartialEq, Eq)]
pub struct InTable<'a> {
    refusal: Refusal,
    table: &'a [u8],
}

/// So many bytes of a long line are shown.
const SHOWN: usize = 80;

impl InTable<'_> {
    /// The refusal alone.
    #[must_use]
    pub const fn refusal(&self) -> Refusal {
        self.refusal
    }

    /// The line at fault without its line feed; none where it is no line's fault, or the line is absent.
    #[must_use]
    pub fn line(&self) -> Option<&[u8]> {
        let index = (self.refusal.line as usize).checked_sub(1)?;
        let line = self.table.split_inclusive(|&byte| byte == b'\n').nth(index)?;
        Some(line.strip_suffix(b"\n").unwrap_or(line))
    }
}

/// The sentence; then the line's text, each byte as one character, and a mark under the column.
impl fmt::Display for InTable<'_> {
    fn fmt(&self, out: &mut fmt::Formatter) -> fmt::Result {
        write!(out, "{}", self.refusal)?;
        let Some(line) = self.line() else { return Ok(()) };
        let column = self.refusal.column as usize;
        let from = column.saturating_sub(SHOWN);
        write!(out, "\n  ")?;
        for &byte in line.iter().skip(from).take(SHOWN) {
            write!(out, "{}", if matches!(byte, b' '..=b'~') { byte as char } else { '?' })?;
        }
        if column > 0 {
            write!(out, "\n  {:1$}^", "", column - 1 - from)?;
        }
        Ok(())
    }
}

impl Error for InTable<'_> {}
