//! The text of an answer, gathered in an array that holds the longest.

/// Eight lines of `run=8,16,4000000001,4000000001` or of `response=1290000`
/// after the three first lines of a report stay below this.
const LONGEST: usize = 256;

pub struct Text {
    bytes: [u8; LONGEST],
    length: usize,
}

impl Text {
    fn new() -> Text {
        Text { bytes: [0; LONGEST], length: 0 }
    }

    pub fn bytes(&self) -> &[u8] {
        &self.bytes[..self.length]
    }

    fn put(&mut self, part: &[u8]) {
        self.bytes[self.length..self.length + part.len()].copy_from_slice(part);
        self.length += part.len();
    }

    fn put_number(&mut self, number: u32) {
        if number >= 10 {
            self.put_number(number / 10);
        }
        self.put(&[b'0' + (number % 10) as u8]);
    }

    fn put_line(&mut self, key: &[u8], number: u32) {
        self.put(key);
        self.put_number(number);
        self.put(b"\n");
    }
}

pub fn report(round: u32, ticks: u32, figures: &[u32]) -> Text {
    let mut text = Text::new();
    text.put_line(b"answer=", 0);
    text.put_line(b"round=", round);
    text.put_line(b"ticks=", ticks);
    for &figure in figures {
        text.put_line(b"response=", figure);
    }
    text
}

/// A running server job, as a row shows it.
pub struct Run {
    pub graph: u32,
    pub node: u32,
    pub number: u32,
    /// 0 for an unlinked one.
    pub invocation: u32,
}

impl Run {
    /// So many periods later; invocation 0 stays 0.
    pub fn moved_on(self, periods: u32) -> Run {
        let invocation = if self.invocation == 0 { 0 } else { self.invocation + periods };
        Run { number: self.number + periods, invocation, ..self }
    }
}

pub fn row(runs: impl Iterator<Item = Run>) -> Text {
    let mut text = Text::new();
    for run in runs {
        text.put(b"run=");
        text.put_number(run.graph);
        text.put(b",");
        text.put_number(run.node);
        text.put(b",");
        text.put_number(run.number);
        text.put_line(b",", run.invocation);
    }
    text
}
