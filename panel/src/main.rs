//! `panel RAW SCORE LOTS BENCHMARK` prints the verdict in words.

use std::env;
use std::process::ExitCode;

const USAGE: &str = "usage: panel RAW SCORE LOTS BENCHMARK
A day's raw count, score and lots, and the group's benchmark in hundredths: whole numbers below 2^64.";

/// The four numbers of a command line, if it has just these.
fn numbers(words: impl Iterator<Item = String>) -> Option<[u64; 4]> {
    let given: Option<Vec<u64>> = words.map(|word| word.parse().ok()).collect();
    given?.try_into().ok()
}

fn main() -> ExitCode {
    let Some([raw, score, lots, benchmark]) = numbers(env::args().skip(1)) else {
        eprintln!("{USAGE}");
        return ExitCode::from(2);
    };
    println!("{}", panel::verdict(raw, score, lots, benchmark));
    ExitCode::SUCCESS
}
