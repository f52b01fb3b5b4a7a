//! The command line.

use crate::library;

#[derive(Clone, Debug, PartialEq, Eq)]
pub struct Options {
    /// The first seed.
    pub seed: u64,
    /// How many seeds, each with one table.
    pub count: u64,
    /// Demand 3 is checked by force on one table in this many; 0 for none.
    pub force: u64,
    /// Threads that share the seeds; what is found does not depend on it.
    pub threads: u64,
    /// What is compared with the second simulator.
    pub against: String,
}

pub const USAGE: &str = "usage: compare [--seed N] [--count N] [--force N] [--threads N] [--against NAME]";

impl Default for Options {
    fn default() -> Options {
        let threads = std::thread::available_parallelism().map_or(1, |cores| cores.get() as u64);
        Options { seed: 1, count: 20_000, force: 4, threads, against: library::names()[0].to_string() }
    }
}

impl Options {
    pub fn read(arguments: impl IntoIterator<Item = String>) -> Result<Options, String> {
        let mut options = Options::default();
        let mut arguments = arguments.into_iter();
        while let Some(name) = arguments.next() {
            let value = arguments.next().ok_or(format!("{name} needs a value\n{USAGE}"))?;
            let number = value.parse().map_err(|_| format!("{name} needs a number\n{USAGE}"));
            match name.as_str() {
                "--seed" => options.seed = number?,
                "--count" => options.count = number?,
                "--force" => options.force = number?,
                "--threads" => options.threads = number?,
                "--against" => options.against = value,
                _ => return Err(format!("{name} is not known\n{USAGE}")),
            }
        }
        if options.count == 0 || options.threads == 0 {
            return Err(format!("--count and --threads are at least 1\n{USAGE}"));
        }
        if !library::names().contains(&options.against.as_str()) {
            return Err(format!("--against takes one of {}\n{USAGE}", library::names().join(", ")));
        }
        Ok(options)
    }
}
