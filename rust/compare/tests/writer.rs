//! The comparison of tables in memory: it agrees with itself, misses nothing that can come up, and finds faults.

use baseline::Pace;
use compare::library::{Library, Plain};
use compare::writer::{Seen, check};
use generator::{Rng, make};
use simulator::memory::{Memory, read, write};
use simulator::{Answer, Batch, Refusal, lend};

/// A writer that is the second simulator's own, but for what `fault` makes of a table in memory before it
/// is written.
struct Faulty(fn(Memory) -> Memory);

impl Library for Faulty {
    fn name(&self) -> &str {
        "faulty"
    }

    fn report(&self, table: &[u8], buffer: &mut [u8]) -> Answer {
        Plain(Pace::Event).report(table, buffer)
    }

    fn row(&self, table: &[u8], instant: u64, buffer: &mut [u8]) -> (Answer, u32) {
        Plain(Pace::Event).row(table, instant, buffer)
    }

    fn batch(&self, tables: &[u8], lengths: &[usize], buffer: &mut [u8]) -> Batch {
        Plain(Pace::Event).batch(tables, lengths, buffer)
    }

    fn read(&self, table: &[u8]) -> Option<Result<Memory, Refusal>> {
        Some(read(table))
    }

    fn write(&self, memory: &Memory, buffer: &mut [u8]) -> Option<Answer> {
        Some(lend(&write(&(self.0)(*memory)), buffer))
    }
}

fn all(library: &dyn Library) -> Result<Seen, String> {
    let mut seen = Seen::default();
    for seed in 1..=1_500 {
        seen += &check(library, &make(seed).text, &mut Rng::new(!seed))?;
    }
    Ok(seen)
}

#[test]
fn every_outcome_comes_up() {
    let seen = all(&Faulty(|memory| memory)).expect("no difference");
    assert!(seen.missing().is_empty(), "{seen}: {:?}", seen.missing());
    assert!(seen.reads.iter().all(|&count| count > 0), "{seen}");
}

#[test]
fn each_outcome_is_missed() {
    let seen = Seen { reads: [1; 5], writes: [1; 11] };
    assert!(seen.missing().is_empty());
    for number in [0, 3, 4, 10] {
        let mut without = seen.clone();
        without.writes[number] = 0;
        assert_eq!(without.missing(), [format!("writing that gives {number}")]);
    }
    for number in 0..5 {
        let mut without = seen.clone();
        without.reads[number] = 0;
        assert_eq!(without.missing(), [format!("reading that gives {number}")]);
    }
}

#[test]
fn a_library_without_these_calls_is_not_held_to_them() {
    let seen = all(&Plain(Pace::Event)).expect("nothing is asked");
    assert_eq!(seen, Seen::default());
    assert!(seen.missing().is_empty());
}

/// A mask of which the high bits are dropped, a count that is cut to its array, stale entries that count.
#[test]
fn faults_are_found() {
    let faults: [fn(Memory) -> Memory; 4] = [
        |mut memory| {
            memory.node.iter_mut().for_each(|node| node.after &= 0x7fff);
            memory
        },
        |mut memory| {
            memory.graphs = memory.graphs.min(8);
            memory
        },
        |mut memory| {
            memory.node.iter_mut().for_each(|node| node.after >>= 1);
            memory
        },
        |mut memory| {
            memory.graphs = memory.graph.iter().filter(|graph| graph.period > 0).count() as u32;
            memory
        },
    ];
    for (at, fault) in faults.into_iter().enumerate() {
        assert!(all(&Faulty(fault)).is_err(), "fault {at}");
    }
}
