//! Answers trials from standard input to standard output.

use std::io::{stdin, stdout};
use std::process::ExitCode;

fn main() -> ExitCode {
    match reference::trial::run(&mut stdin().lock(), &mut stdout().lock()) {
        Ok(()) => ExitCode::SUCCESS,
        Err(error) => {
            eprintln!("trial: input or output failed: {error}");
            ExitCode::FAILURE
        }
    }
}
