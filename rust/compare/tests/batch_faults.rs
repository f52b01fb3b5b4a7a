//! Faulty calls on several tables are found out.

use baseline::Pace;
use compare::library::{Library, Plain};
use compare::options::Options;
use compare::run::{Fault, run};
use simulator::{Answer, Batch};

/// A plain engine whose call on several tables is another.
struct Other<F>(F);

impl<F: Fn(&[u8], &[usize], &mut [u8]) -> Batch + Sync> Library for Other<F> {
    fn name(&self) -> &str {
        "other"
    }

    fn report(&self, table: &[u8], buffer: &mut [u8]) -> Answer {
        Plain(Pace::Tick).report(table, buffer)
    }

    fn row(&self, table: &[u8], instant: u64, buffer: &mut [u8]) -> (Answer, u32) {
        Plain(Pace::Tick).row(table, instant, buffer)
    }

    fn batch(&self, tables: &[u8], lengths: &[usize], buffer: &mut [u8]) -> Batch {
        (self.0)(tables, lengths, buffer)
    }
}

fn plain(tables: &[u8], lengths: &[usize], buffer: &mut [u8]) -> Batch {
    Plain(Pace::Tick).batch(tables, lengths, buffer)
}

fn is_found(batch: impl Fn(&[u8], &[usize], &mut [u8]) -> Batch + Sync) {
    let options = Options { seed: 1, count: 2_000, force: 0, ..Options::default() };
    let fault = run(&Other(batch), &options).expect_err("the fault was not found");
    assert!(matches!(fault, Fault::Batch { .. }), "{fault}");
}

#[test]
fn remainder_written() {
    is_found(|tables, lengths, buffer| {
        let batch = plain(tables, lengths, buffer);
        if batch.number == 0 && !buffer.len().is_multiple_of(lengths.len()) {
            buffer[buffer.len() - 1] = b'a';
        }
        batch
    });
}

#[test]
fn shares_counted_from_the_end() {
    is_found(|tables, lengths, buffer| {
        let count = lengths.len().max(1);
        let rest = buffer.len() % count;
        plain(tables, lengths, &mut buffer[rest..])
    });
}

#[test]
fn lengths_that_wrap() {
    is_found(|tables, lengths, buffer| {
        let total = lengths.iter().fold(0usize, |sum, length| sum.wrapping_add(*length));
        match plain(tables, lengths, buffer) {
            batch if batch.number == 11 && total == tables.len() => Batch { number: 0, ..batch },
            batch => batch,
        }
    });
}

#[test]
fn a_refusal_that_stops_the_others() {
    is_found(|tables, lengths, buffer| {
        let mut batch = plain(tables, lengths, buffer);
        if let Some(first) = batch.answers.iter().position(|answer| answer.number > 0) {
            let refusal = batch.answers[first];
            batch.answers[first..].fill(refusal);
        }
        batch
    });
}
