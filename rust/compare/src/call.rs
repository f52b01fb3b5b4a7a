//! One call: what it returns, and every byte in and around the buffer.

use crate::library::Library;
use simulator::{Answer, Reply, lend};
use std::fmt;

#[derive(Clone, Copy, Debug, PartialEq, Eq)]
pub enum Question {
    Report,
    Row(u64),
}

/// What a call returned, and the lent buffer with its guards after it.
#[derive(Clone, Debug, PartialEq, Eq)]
pub struct Outcome {
    pub answer: Answer,
    /// Ticks walked, of a row that is answered; else 0.
    pub walked: u32,
    pub bytes: Vec<u8>,
}

/// A call on which the library and the second simulator differ.
#[derive(Clone, Debug, PartialEq, Eq)]
pub struct Difference {
    pub library: String,
    pub question: Question,
    pub buffer_length: usize,
    pub expected: Outcome,
    pub got: Outcome,
}

/// Bytes on both sides of the lent buffer that no call may touch.
pub(crate) const GUARD: usize = 24;

/// The lent bytes before a call. None is ASCII, so that any byte of text
/// that is written changes one.
pub(crate) fn untouched(buffer_length: usize) -> Vec<u8> {
    (0..buffer_length + 2 * GUARD).map(|at| 0x80 | (at as u8).wrapping_mul(37)).collect()
}

/// The difference of one call from the second simulator's reply, if any;
/// `ticks` are those that a row tells with its text.
pub fn difference(
    library: &dyn Library,
    table: &[u8],
    question: Question,
    (reply, ticks): (&Reply, u32),
    buffer_length: usize,
) -> Option<Difference> {
    let within = GUARD..GUARD + buffer_length;
    let mut bytes = untouched(buffer_length);
    let answer = lend(reply, &mut bytes[within.clone()]);
    let walked = if answer.number == 0 { ticks } else { 0 };
    let expected = Outcome { answer, walked, bytes };
    let mut bytes = untouched(buffer_length);
    let (answer, walked) = match question {
        Question::Report => (library.report(table, &mut bytes[within]), 0),
        Question::Row(instant) => library.row(table, instant, &mut bytes[within]),
    };
    let got = Outcome { answer, walked, bytes };
    let library = library.name().to_string();
    (got != expected).then_some(Difference { library, question, buffer_length, expected, got })
}

impl fmt::Display for Difference {
    fn fmt(&self, out: &mut fmt::Formatter) -> fmt::Result {
        write!(out, "{}: ", self.library)?;
        match self.question {
            Question::Report => write!(out, "report")?,
            Question::Row(instant) => write!(out, "row at {instant}")?,
        }
        writeln!(out, " with a buffer of {}", self.buffer_length)?;
        writeln!(out, "second simulator: {}", self.expected)?;
        write!(out, "library:          {}", self.got)
    }
}

impl fmt::Display for Outcome {
    fn fmt(&self, out: &mut fmt::Formatter) -> fmt::Result {
        let Answer { number, line, column, length } = self.answer;
        write!(out, "number {number}, line {line}, column {column}, length {length}, ")?;
        if self.walked > 0 {
            write!(out, "walked {}, ", self.walked)?;
        }
        let end = self.bytes.len() - GUARD;
        write!(out, "buffer \"{}\"", self.bytes[GUARD..end].escape_ascii())?;
        let clean = untouched(end - GUARD);
        if self.bytes[..GUARD] != clean[..GUARD] || self.bytes[end..] != clean[end..] {
            write!(out, ", and bytes outside the buffer changed")?;
        }
        Ok(())
    }
}
