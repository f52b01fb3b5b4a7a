//! Compares a library with the second simulator: exit status 0 and a summary
//! line; or 1 with a shrunken table and both answers, or with the outcomes that
//! never came up.
#![forbid(unsafe_code)]

use compare::library::by_name;
use compare::options::Options;
use compare::run::run;
use std::process::ExitCode;

fn main() -> ExitCode {
    let options = match Options::read(std::env::args().skip(1)) {
        Ok(options) => options,
        Err(message) => {
            eprintln!("{message}");
            return ExitCode::from(2);
        }
    };
    let library = by_name(&options.against).expect("the options were read against the known names");
    match run(library.as_ref(), &options) {
        Ok(outcomes) => {
            let last = options.seed.saturating_add(options.count - 1);
            println!("compare {}: seeds {} to {last}: {outcomes}", library.name(), options.seed);
            told(&outcomes.missing(options.force > 0))
        }
        Err(fault) => {
            println!("compare {}: {fault}", library.name());
            ExitCode::FAILURE
        }
    }
}

/// Success, unless something never came up: then too little was compared.
fn told(missing: &[String]) -> ExitCode {
    if missing.is_empty() {
        return ExitCode::SUCCESS;
    }
    println!("compare: too little was compared; what never came up: {}", missing.join(", "));
    ExitCode::FAILURE
}
