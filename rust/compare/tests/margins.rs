//! The comparison of margins: it agrees with itself, misses nothing that can come up, and finds faults.

use baseline::Pace;
use compare::library::{Library, Plain};
use compare::margins::{Margins, check};
use generator::{Rng, make};
use simulator::{Answer, Batch, Reply, lend, margin, report};

/// What a fault makes of a reply, and of whether it is a refusal of the limit text.
type Fault = fn(Reply, bool) -> (Reply, bool);

/// The second simulator's own margins, but for what a fault makes of them.
struct Faulty(Fault);

impl Library for Faulty {
    fn name(&self) -> &str {
        "faulty"
    }

    fn report(&self, table: &[u8], buffer: &mut [u8]) -> Answer {
        Plain(Pace::Event).report(table, buffer)
    }

    fn row(&self, table: &[u8], instant: u64, buffer: &mut [u8]) -> (Answer, u32) {
        Plain(Pace::Event).row(table, instant, buffer)
    }

    fn batch(&self, tables: &[u8], lengths: &[usize], buffer: &mut [u8]) -> Batch {
        Plain(Pace::Event).batch(tables, lengths, buffer)
    }

    fn margin(&self, table: &[u8], limits: &[u8], buffer: &mut [u8]) -> Option<(Answer, bool)> {
        let given = margin(table, limits);
        let (reply, in_limits) = (self.0)(given.reply, given.in_limits);
        Some((lend(&reply, buffer), in_limits))
    }
}

fn all(library: &dyn Library) -> Result<Margins, String> {
    let mut seen = Margins::default();
    for seed in 1..=1_500 {
        let table = make(seed).text;
        seen += &check(library, &table, &report(&table), &mut Rng::new(!seed))?;
    }
    Ok(seen)
}

#[test]
fn every_outcome_comes_up() {
    let seen = all(&Faulty(|reply, in_limits| (reply, in_limits))).expect("no difference");
    assert!(seen.missing().is_empty(), "{seen}: {:?}", seen.missing());
}

#[test]
fn each_outcome_is_missed() {
    let seen = Margins { of_table: [1; 13], of_limits: [1; 4], signs: [1; 3] };
    assert!(seen.missing().is_empty());
    for number in [0, 1, 2, 3, 4, 5, 6, 8, 10, 12] {
        let mut without = seen.clone();
        without.of_table[number] = 0;
        assert_eq!(without.missing(), [format!("margins that give {number}")]);
    }
    for number in [1, 2, 3] {
        let mut without = seen.clone();
        without.of_limits[number] = 0;
        assert_eq!(without.missing(), [format!("limits that give {number}")]);
    }
    for sign in 0..3 {
        let mut without = seen.clone();
        without.signs[sign] = 0;
        assert_eq!(without.missing().len(), 1);
    }
}

#[test]
fn a_library_without_the_call_is_not_held_to_it() {
    let seen = all(&Plain(Pace::Event)).expect("nothing is asked");
    assert_eq!(seen, Margins::default());
    assert!(seen.missing().is_empty());
}

/// A minus sign lost, a margin off by one, a refusal told of the other text, a refusal as an answer.
#[test]
fn faults_are_found() {
    let faults: [Fault; 4] = [
        |reply, in_limits| (changed(reply, |text| text.replace("margin=-", "margin=")), in_limits),
        |reply, in_limits| (changed(reply, |text| text.replace("margin=0\n", "margin=-0\n")), in_limits),
        |reply, in_limits| (reply, !in_limits),
        |reply, in_limits| match reply {
            Reply::Refused { number: 8, .. } if !in_limits => (Reply::Text(Vec::new()), false),
            other => (other, in_limits),
        },
    ];
    for (at, fault) in faults.into_iter().enumerate() {
        assert!(all(&Faulty(fault)).is_err(), "fault {at}");
    }
}

fn changed(reply: Reply, change: fn(&str) -> String) -> Reply {
    match reply {
        Reply::Text(text) => Reply::Text(change(&String::from_utf8(text).expect("ASCII")).into_bytes()),
        refused => refused,
    }
}
