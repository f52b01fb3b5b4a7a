//! The command line is read as its usage says.

use compare::options::Options;

fn read(line: &str) -> Result<Options, String> {
    Options::read(line.split_whitespace().map(String::from))
}

#[test]
fn values_are_taken() {
    let options = read("--seed 7 --count 9 --force 0 --threads 3 --against event").expect("options");
    assert_eq!(options, Options { seed: 7, count: 9, force: 0, threads: 3, against: "event".into() });
    assert_eq!(read("").expect("defaults").seed, 1);
}

#[test]
fn wrong_lines_are_refused() {
    for line in [
        "--seed",
        "--seed x",
        "--count -1",
        "--count 0",
        "--threads 0",
        "--what 1",
        "--against nothing",
        "seed 1",
    ] {
        assert!(read(line).is_err(), "{line}");
    }
}
