//! Replies, refusals, and what a call with a lent buffer returns and leaves.

/// A refusal's number and line in document 01's table of refusals, or as
/// document 02 adds them, and its column.
#[derive(Clone, Copy, Debug, PartialEq, Eq)]
pub struct Refusal {
    pub number: u32,
    pub line: u32,
    pub column: u32,
}

/// What a question is answered with when no buffer is too short.
#[derive(Clone, Debug, PartialEq, Eq)]
pub enum Reply {
    Text(Vec<u8>),
    Refused { number: u32, line: u32, column: u32 },
}

impl From<Refusal> for Reply {
    fn from(refusal: Refusal) -> Reply {
        let Refusal { number, line, column } = refusal;
        Reply::Refused { number, line, column }
    }
}

/// What a call with a lent buffer returns: number, line and column 0 and the
/// text's length, or a refusal's number, line and column and length 0.
#[derive(Clone, Copy, Debug, PartialEq, Eq)]
pub struct Answer {
    pub number: u32,
    pub line: u32,
    pub column: u32,
    pub length: usize,
}

/// Gives the reply to a caller who lent `buffer`: the text at its beginning
/// and every byte after it unchanged, or a refusal, 10 if the text is longer
/// than the buffer, and no byte changed.
pub fn lend(reply: &Reply, buffer: &mut [u8]) -> Answer {
    match reply {
        &Reply::Refused { number, line, column } => Answer { number, line, column, length: 0 },
        Reply::Text(text) if text.len() > buffer.len() => {
            Answer { number: 10, line: 0, column: 0, length: 0 }
        }
        Reply::Text(text) => {
            buffer[..text.len()].copy_from_slice(text);
            Answer { number: 0, line: 0, column: 0, length: text.len() }
        }
    }
}
