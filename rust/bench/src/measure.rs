//! How a call is timed.

use crate::tables::Case;
use compare::library::Library;
use simulator::question::judge;
use simulator::walk::walk;
use std::hint::black_box;
use std::time::{Duration, Instant};

/// Nanoseconds per call over the samples taken.
#[derive(Clone, Copy, Debug, PartialEq)]
pub struct Timing {
    /// The least, which the noise of the machine disturbs least.
    pub best: f64,
    /// The middle one; its distance from the best shows the noise.
    pub middle: f64,
}

/// A sample takes at least this long, by repeating the call.
const SAMPLE: Duration = Duration::from_millis(10);

/// A call that takes longer is timed once: the plain engine on a walk of many ticks.
const SLOW: Duration = Duration::from_millis(500);

/// Longer than any text.
const BUFFER: usize = 512;

/// The ticks a table is walked for, by the second simulator.
pub fn ticks(case: &Case) -> u32 {
    match judge(&case.text) {
        Ok((table, hyperperiod)) => walk(&table, hyperperiod, |_, _| ()).ticks,
        Err(refusal) => panic!("{} is refused before its walk: {refusal:?}", case.name),
    }
}

/// The report of a case by each library. Samples of the libraries take turns,
/// so that a slow spell of the machine falls on all of them.
pub fn time(case: &Case, libraries: &[Box<dyn Library>], samples: usize) -> Vec<Timing> {
    let repeats: Vec<(u32, Duration)> =
        libraries.iter().map(|library| repeats(library.as_ref(), case)).collect();
    let mut taken: Vec<Vec<f64>> = vec![Vec::new(); libraries.len()];
    for _ in 0..samples {
        for ((library, &(repeats, first)), taken) in libraries.iter().zip(&repeats).zip(&mut taken) {
            let slow = SLOW < first;
            if !slow || taken.is_empty() {
                let one = if slow { first } else { sample(library.as_ref(), case, repeats) };
                taken.push(one.as_nanos() as f64 / f64::from(repeats));
            }
        }
    }
    taken.into_iter().map(timing).collect()
}

fn sample(library: &dyn Library, case: &Case, repeats: u32) -> Duration {
    let mut buffer = [0; BUFFER];
    let start = Instant::now();
    for _ in 0..repeats {
        black_box(library.report(black_box(&case.text), black_box(&mut buffer)));
    }
    start.elapsed()
}

/// How often the call must be repeated to fill a sample, and how long that took.
fn repeats(library: &dyn Library, case: &Case) -> (u32, Duration) {
    let mut repeats = 1;
    loop {
        let took = sample(library, case, repeats);
        if took >= SAMPLE {
            return (repeats, took);
        }
        repeats *= 2;
    }
}

fn timing(mut taken: Vec<f64>) -> Timing {
    taken.sort_unstable_by(f64::total_cmp);
    Timing { best: taken[0], middle: taken[taken.len() / 2] }
}

#[cfg(test)]
mod tests {
    use super::*;

    #[test]
    fn best_and_middle() {
        assert_eq!(timing(vec![3.0, 1.0, 2.0, 9.0, 8.0]), Timing { best: 1.0, middle: 3.0 });
        assert_eq!(timing(vec![4.0]), Timing { best: 4.0, middle: 4.0 });
    }
}
