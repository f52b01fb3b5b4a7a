//! Faulty libraries are found out, and their tables shrunken.

use baseline::Pace;
use compare::call::Question;
use compare::library::{Library, Plain};
use compare::options::Options;
use compare::run::{Fault, run};
use simulator::{Answer, Batch};

/// A plain engine whose answers are spoilt after the fact.
struct Spoilt<F>(F);

impl<F: Fn(Question, &[u8], &mut [u8], Answer) -> Answer + Sync> Library for Spoilt<F> {
    fn name(&self) -> &str {
        "spoilt"
    }

    fn report(&self, table: &[u8], buffer: &mut [u8]) -> Answer {
        let answer = Plain(Pace::Tick).report(table, buffer);
        (self.0)(Question::Report, table, buffer, answer)
    }

    fn row(&self, table: &[u8], instant: u64, buffer: &mut [u8]) -> (Answer, u32) {
        let (answer, walked) = Plain(Pace::Tick).row(table, instant, buffer);
        ((self.0)(Question::Row(instant), table, buffer, answer), walked)
    }

    fn batch(&self, tables: &[u8], lengths: &[usize], buffer: &mut [u8]) -> Batch {
        Plain(Pace::Tick).batch(tables, lengths, buffer)
    }
}

/// The shrunken table and the question of the first difference.
fn found(spoil: impl Fn(Question, &[u8], &mut [u8], Answer) -> Answer + Sync) -> (String, Question) {
    let options = Options { seed: 1, count: 2_000, force: 0, ..Options::default() };
    match run(&Spoilt(spoil), &options) {
        Err(Fault::Differs { table, difference, .. }) => {
            (String::from_utf8_lossy(&table).into_owned(), difference.question)
        }
        other => panic!("the fault was not found: {other:?}"),
    }
}

const SMALLEST: &str =
    "processors=1\nrounds=1\ngraphs=1\nperiod=1\noffset=0\nnodes=1\nbudget=1\nlevel=1\nafter=none\n";

#[test]
fn byte_written_after_the_text() {
    let (table, question) = found(|_, _, buffer, answer| {
        if answer.number == 0
            && let Some(byte) = buffer.get_mut(answer.length)
        {
            *byte = 0;
        }
        answer
    });
    assert_eq!((table.as_str(), question), (SMALLEST, Question::Report));
}

#[test]
fn byte_written_on_a_refusal() {
    let (table, _) = found(|_, _, buffer, answer| {
        if answer.number == 2 && !buffer.is_empty() {
            buffer[0] = b'a';
        }
        answer
    });
    assert_eq!(table, "");
}

#[test]
fn wrong_line() {
    let wrong = |_: Question, _: &[u8], _: &mut [u8], mut answer: Answer| {
        answer.line += u32::from(answer.number == 4);
        answer
    };
    let (table, _) = found(wrong);
    let lines: Vec<&str> = table.lines().collect();
    assert!(lines.len() <= 15 && lines.iter().any(|line| line.starts_with("after=")), "{table}");
}

#[test]
fn wrong_digit_in_one_response() {
    // Only a third graph's response of 10 or more is spoilt.
    let (table, question) = found(|_, _, buffer, answer| {
        if answer.number == 0 && buffer.starts_with(b"answer") {
            let text = buffer[..answer.length].to_vec();
            let lines: Vec<&[u8]> = text.split_inclusive(|&byte| byte == b'\n').collect();
            if lines.len() >= 6 && lines[5].len() >= 12 {
                let at = lines[..6].concat().len() - 2;
                buffer[at] ^= 1;
            }
        }
        answer
    });
    assert_eq!(question, Question::Report);
    let table = simulator::reader::read(table.as_bytes()).expect("a table");
    assert_eq!(table.graphs.len(), 3, "{table:?}");
    assert!(table.node_total() <= 4, "{table:?}");
}

#[test]
fn wrong_row_at_one_instant() {
    let (table, question) = found(|question, _, buffer, answer| {
        if question == Question::Row(7) && answer.number == 0 && answer.length > 0 {
            buffer[answer.length - 2] ^= 1;
        }
        answer
    });
    assert_eq!(question, Question::Row(7));
    let table = simulator::reader::read(table.as_bytes()).expect("a table");
    assert!(table.node_total() <= 4, "{table:?}");
}

#[test]
fn refusal_given_too_often() {
    let (table, _) = found(|_, table, _, answer| {
        let twelve = table.windows(9).any(|part| part == b"period=12");
        if twelve { Answer { number: 6, line: 0, column: 0, length: 0 } } else { answer }
    });
    assert!(table.contains("period=12"), "{table}");
    assert!(table.lines().count() <= 9, "{table}");
}

#[test]
fn length_told_on_a_refusal() {
    let (_, question) = found(|_, _, _, mut answer| {
        answer.length += usize::from(answer.number == 9);
        answer
    });
    assert!(matches!(question, Question::Row(_)));
}

/// A library whose plain engine is spoilt, and nothing else.
struct SpoiltPlain<F>(Spoilt<F>);

impl<F: Fn(Question, &[u8], &mut [u8], Answer) -> Answer + Sync> Library for SpoiltPlain<F> {
    fn name(&self) -> &str {
        "right"
    }

    fn report(&self, table: &[u8], buffer: &mut [u8]) -> Answer {
        Plain(Pace::Tick).report(table, buffer)
    }

    fn row(&self, table: &[u8], instant: u64, buffer: &mut [u8]) -> (Answer, u32) {
        Plain(Pace::Tick).row(table, instant, buffer)
    }

    fn batch(&self, tables: &[u8], lengths: &[usize], buffer: &mut [u8]) -> Batch {
        Plain(Pace::Tick).batch(tables, lengths, buffer)
    }

    fn plain(&self) -> Option<&dyn Library> {
        Some(&self.0)
    }
}

/// The library and the question of the first difference.
fn found_plain(spoil: impl Fn(Question, &[u8], &mut [u8], Answer) -> Answer + Sync) -> (String, Question) {
    let options = Options { seed: 1, count: 2_000, force: 0, ..Options::default() };
    match run(&SpoiltPlain(Spoilt(spoil)), &options) {
        Err(Fault::Differs { difference, .. }) => (difference.library, difference.question),
        other => panic!("the fault was not found: {other:?}"),
    }
}

#[test]
fn plain_engine_with_another_refusal() {
    let (library, question) = found_plain(|_, _, _, mut answer| {
        answer.number += u32::from(answer.number == 7);
        answer
    });
    assert_eq!((library.as_str(), question), ("spoilt", Question::Report));
}

#[test]
fn plain_engine_with_another_row() {
    let (library, question) = found_plain(|question, _, buffer, answer| {
        if matches!(question, Question::Row(3..)) && answer.number == 0 && answer.length > 0 {
            buffer[answer.length - 2] ^= 1;
        }
        answer
    });
    assert_eq!(library, "spoilt");
    assert!(matches!(question, Question::Row(3..)), "{question:?}");
}

#[test]
fn fault_shows_the_table_and_both_answers() {
    let spoil = |_: Question, _: &[u8], _: &mut [u8], mut answer: Answer| {
        answer.number += u32::from(answer.number == 8);
        answer
    };
    let options = Options { seed: 1, count: 2_000, force: 0, ..Options::default() };
    let shown = run(&Spoilt(spoil), &options).expect_err("a fault").to_string();
    assert!(shown.contains("    processors="), "{shown}");
    assert!(shown.contains("second simulator: number 8, line 0, column 0, length 0"), "{shown}");
    assert!(shown.contains("library:          number 9, line 0, column 0, length 0"), "{shown}");
}
