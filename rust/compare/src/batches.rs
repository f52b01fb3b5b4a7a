//! Calls on several tables: what they return, and every byte in and around the buffer.

use crate::call::{GUARD, untouched};
use crate::library::Library;
use generator::Batch;

/// The numbers that the second simulator gives: the call's where it is refused, else each table's.
pub fn numbers(batch: &simulator::Batch) -> Vec<usize> {
    match batch.number {
        0 => batch.answers.iter().map(|answer| answer.number as usize).collect(),
        number => vec![number as usize],
    }
}

/// The second simulator's answer, where the library agrees with it in all; else both, in words.
pub fn check_batch(library: &dyn Library, asked: &Batch) -> Result<simulator::Batch, String> {
    let Batch { tables, lengths, buffer_length } = asked;
    let within = GUARD..GUARD + buffer_length;
    let mut expected = untouched(*buffer_length);
    let answer = simulator::batch(tables, lengths, &mut expected[within.clone()]);
    let mut bytes = untouched(*buffer_length);
    let got = library.batch(tables, lengths, &mut bytes[within]);
    if got == answer && bytes == expected {
        return Ok(answer);
    }
    Err(format!(
        "batch of lengths {lengths:?} with a buffer of {buffer_length}\n\
         second simulator: {answer:?}, bytes \"{}\"\nlibrary:          {got:?}, bytes \"{}\"",
        expected.escape_ascii(),
        bytes.escape_ascii()
    ))
}
