//! Runs a session on the linked manager, from standard input to standard output.

mod linked;

use std::io::{stdin, stdout};
use std::process::ExitCode;

use linked::{ended, Linked};

fn main() -> ExitCode {
    ended("session", reference::session::run_on::<Linked>(&mut stdin().lock(), &mut stdout().lock()))
}
