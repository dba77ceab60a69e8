//! How the programs end: what they cannot do is one line on standard error, and exit status 1.

use std::process::{ExitCode, exit};
use std::{env, panic};

/// Runs a program on the words that it was given, or shows its usage where they ask for help. An assertion
/// that does not hold ends it like any other failure.
pub fn run(name: &'static str, usage: &str, program: fn(Vec<String>) -> Result<(), String>) -> ExitCode {
    panic::set_hook(Box::new(move |fault| {
        eprintln!("{name}: {}", fault.to_string().replace('\n', " "));
        exit(1);
    }));
    let words: Vec<String> = env::args().skip(1).collect();
    if words.iter().any(|word| word == "--help") {
        println!("{usage}");
        return ExitCode::SUCCESS;
    }
    match program(words) {
        Ok(()) => ExitCode::SUCCESS,
        Err(message) => {
            eprintln!("{name}: {message}");
            ExitCode::FAILURE
        }
    }
}
