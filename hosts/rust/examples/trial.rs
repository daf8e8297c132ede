//! Runs trials on the linked manager, from standard input to standard output.

mod linked;

use std::io::{stdin, stdout};
use std::process::ExitCode;

use linked::{ended, Linked};

fn main() -> ExitCode {
    ended("trial", reference::trial::run_on::<Linked>(&mut stdin().lock(), &mut stdout().lock()))
}
