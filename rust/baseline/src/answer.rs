//! What a call returns.

/// What a call returns; number 0 is an answer, all else a refusal.
#[derive(Clone, Copy, Debug, PartialEq, Eq)]
pub struct Answer {
    pub number: u32,
    pub line: u32,
    pub column: u32,
    pub length: usize,
}

impl Answer {
    /// A refusal that is no line's fault.
    pub fn refusal(number: u32) -> Answer {
        Answer { number, line: 0, column: 0, length: 0 }
    }
}
