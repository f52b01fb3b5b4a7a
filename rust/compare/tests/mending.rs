//! Faulty salvages are found out, and their texts shrunken.

use baseline::Pace;
use compare::library::{Library, Plain};
use compare::mending::Salvaged;
use compare::options::Options;
use compare::run::{Fault, run};
use simulator::{Answer, Batch};

/// A plain salvage spoilt after the fact.
struct Spoilt<F>(F);

impl<F: Fn(&[u8], &mut [u8], &mut [u8], Salvaged) -> Salvaged + Sync> Library for Spoilt<F> {
    fn name(&self) -> &str {
        "spoilt"
    }

    fn report(&self, table: &[u8], buffer: &mut [u8]) -> Answer {
        Plain(Pace::Event).report(table, buffer)
    }

    fn row(&self, table: &[u8], instant: u64, buffer: &mut [u8]) -> (Answer, u32) {
        Plain(Pace::Event).row(table, instant, buffer)
    }

    fn batch(&self, tables: &[u8], lengths: &[usize], buffer: &mut [u8]) -> Batch {
        Plain(Pace::Event).batch(tables, lengths, buffer)
    }

    fn salvage(&self, given: &[u8], text: &mut [u8], list: &mut [u8]) -> Salvaged {
        let answer = Plain(Pace::Event).salvage(given, text, list);
        (self.0)(given, text, list, answer)
    }
}

/// The shrunken text of the first difference.
fn found(spoil: impl Fn(&[u8], &mut [u8], &mut [u8], Salvaged) -> Salvaged + Sync) -> String {
    let options = Options { seed: 1, count: 2_000, force: 0, ..Options::default() };
    match run(&Spoilt(spoil), &options) {
        Err(Fault::Mends { text, .. }) => String::from_utf8_lossy(&text).into_owned(),
        other => panic!("the fault was not found: {other:?}"),
    }
}

#[test]
fn one_output_written_where_the_other_is_short() {
    let text = found(|_, text, _, answer| {
        if answer.number == 10 && !text.is_empty() {
            text[0] = b'a';
        }
        answer
    });
    assert!(text.len() <= 2, "{text:?}");
}

#[test]
fn a_byte_written_after_the_list() {
    found(|_, _, list, answer| {
        if answer.number == 0
            && let Some(byte) = list.get_mut(answer.list_length)
        {
            *byte = b'f';
        }
        answer
    });
}

/// Zeros before a digit that are left alone.
#[test]
fn zeros_that_stay() {
    let text = found(|given, text, list, answer| {
        let plain = String::from_utf8_lossy(given);
        if plain.contains("=01\n") { Plain(Pace::Event).salvage(b"", text, list) } else { answer }
    });
    assert_eq!(text, "=01\n");
}

#[test]
fn a_length_told_on_a_refusal() {
    found(|_, _, _, mut answer| {
        answer.text_length += usize::from(answer.number == 1);
        answer
    });
}

#[test]
fn a_fault_shows_the_text_and_both_answers() {
    let spoil = |_: &[u8], _: &mut [u8], _: &mut [u8], mut answer: Salvaged| {
        answer.line += u32::from(answer.number == 10);
        answer
    };
    let options = Options { seed: 1, count: 2_000, force: 0, ..Options::default() };
    let shown = run(&Spoilt(spoil), &options).expect_err("a fault").to_string();
    assert!(shown.contains("is mended otherwise"), "{shown}");
    assert!(shown.contains("second simulator: number 10, line 0, column 0"), "{shown}");
    assert!(shown.contains("library:          number 10, line 1, column 0"), "{shown}");
}
