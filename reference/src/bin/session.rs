//! Runs a session from standard input to standard output.

use std::io::{stdin, stdout};
use std::process::ExitCode;

fn main() -> ExitCode {
    match reference::session::run(&mut stdin().lock(), &mut stdout().lock()) {
        Ok(()) => ExitCode::SUCCESS,
        Err(error) => {
            eprintln!("session: input or output failed: {error}");
            ExitCode::FAILURE
        }
    }
}
