//! Times the report of each library on the same tables in one run, and prints
//! ratios against the better of the plain engines that go from event to event;
//! then the stack that each library's calls need.
//!
//! `bench [samples]`; build with `--release`, and with `--features proved` to
//! time the proved library too, and its plain engine.
#![forbid(unsafe_code)]

use bench::{print, stack, tables};
use compare::library::{Library, by_name, names};
use std::process::ExitCode;

const USUAL_SAMPLES: usize = 9;

fn main() -> ExitCode {
    let arguments: Vec<String> = std::env::args().skip(1).collect();
    if arguments.first().is_some_and(|first| first == stack::TRY) {
        return stack::try_once(&arguments[1..]);
    }
    let samples = match arguments.first().map(|text| text.parse()) {
        None => USUAL_SAMPLES,
        Some(Ok(samples)) if samples > 0 => samples,
        Some(_) => {
            eprintln!("usage: bench [samples]");
            return ExitCode::from(2);
        }
    };
    if cfg!(debug_assertions) {
        eprintln!("this is no release build: the figures mean nothing");
    }
    let libraries: Vec<Box<dyn Library>> = names().iter().filter_map(|name| by_name(name)).collect();
    println!(
        "ns per call, best of {samples} samples, one of a call over half a second; \
         ratio: the first library by the better rival; noise: middle by best"
    );
    let sections = [
        ("Document 01's tables", tables::document()),
        ("An event in every tick", tables::busy()),
        ("The largest walks", tables::largest()),
        ("A typical box", tables::turbine()),
        ("All budgets, periods and offsets times 10", tables::times_ten()),
        ("Growth with ticks (32 nodes, 8 processors)", tables::by_ticks()),
        ("Growth with nodes (8 processors)", tables::by_nodes()),
        ("Growth with processors (32 nodes)", tables::by_processors()),
    ];
    for (title, cases) in sections {
        print::section(title, &cases, &libraries, samples);
    }
    stack::section(names());
    ExitCode::SUCCESS
}
