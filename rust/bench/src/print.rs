//! The lines printed: one for each case.

use crate::measure::{Timing, ticks, time};
use crate::tables::Case;
use compare::library::Library;

/// The plain libraries that go from event to event: ratios are taken against
/// the better of them.
const RIVALS: [&str; 2] = ["event", "tuned"];

/// Times each case of a section and prints it: the nanoseconds of a call by
/// each library; those of the first, per tick and by the better rival; and the
/// largest noise of the line.
pub fn section(title: &str, cases: &[Case], libraries: &[Box<dyn Library>], samples: usize) {
    println!("\n{title}");
    print!("{:<30}{:>9}", "table", "ticks");
    for library in libraries {
        print!("{:>12}", library.name());
    }
    println!("{:>10}{:>8}{:>8}", "ns/tick", "ratio", "noise");
    for case in cases {
        let ticks = ticks(case);
        let timings = time(case, libraries, samples);
        print!("{:<30}{ticks:>9}", case.name);
        for timing in &timings {
            print!("{:>12.0}", timing.best);
        }
        let first = timings[0].best;
        println!(
            "{:>10.1}{:>8.2}{:>8.2}",
            first / f64::from(ticks),
            first / better_rival(libraries, &timings),
            noise(&timings)
        );
    }
}

fn better_rival(libraries: &[Box<dyn Library>], timings: &[Timing]) -> f64 {
    let rivals = libraries.iter().zip(timings).filter(|(library, _)| RIVALS.contains(&library.name()));
    rivals.map(|(_, timing)| timing.best).fold(f64::INFINITY, f64::min)
}

fn noise(timings: &[Timing]) -> f64 {
    timings.iter().map(|timing| timing.middle / timing.best).fold(1.0, f64::max)
}
