// What the programs' commands share.

use std::process::ExitCode;

// A number among a command's words.
pub fn number(text: &str) -> u64 {
    text.parse().unwrap_or_else(|_| panic!("{text} isn't a number"))
}

// The status of a command; what went wrong is said on standard error.
pub fn status(done: Result<(), String>) -> ExitCode {
    match done {
        Ok(()) => ExitCode::SUCCESS,
        Err(said) => {
            eprintln!("{said}");
            ExitCode::FAILURE
        }
    }
}
