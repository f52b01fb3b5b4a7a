//! The text of an answer in room of its own.

use crate::calls::Answer;
use crate::refusal::Refusal;

#[derive(Clone, Copy)]
pub struct Text<const ROOM: usize> {
    bytes: [u8; ROOM],
    length: usize,
}

impl<const ROOM: usize> Text<ROOM> {
    /// The text that a call writes, or its refusal.
    pub fn written(call: impl FnOnce(&mut [u8]) -> Answer) -> Result<Self, Refusal> {
        let mut bytes = [0; ROOM];
        let length = call(&mut bytes).result()?;
        Ok(Text { bytes, length })
    }

    pub fn as_str(&self) -> &str {
        core::str::from_utf8(&self.bytes[..self.length]).expect("an answer is ASCII")
    }

    /// The numbers of the lines `key=`, each line's parted by commas.
    pub fn numbers<const COUNT: usize>(&self, key: &'static str) -> impl Iterator<Item = [u32; COUNT]> {
        let lines = self.as_str().lines().filter_map(move |line| line.split_once('='));
        lines.filter(move |(of, _)| *of == key).map(|(_, value)| {
            let mut numbers = value.split(',').map(|number| number.parse().expect("a number"));
            core::array::from_fn(|_| numbers.next().expect("as many numbers as the line has"))
        })
    }
}
