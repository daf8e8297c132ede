//! Prints trials or a session's lines of one kind: `make KIND [SEED [COUNT]]`. The kind `all` is all trials in a row.

use std::io::{stdout, BufWriter, Write};
use std::process::ExitCode;

use reference::make::{self, SessionKind, TrialKind, DEFAULT_SEED};

fn kinds() -> String {
    let trials = TrialKind::ALL.map(TrialKind::name);
    let sessions = SessionKind::ALL.map(SessionKind::name);
    [trials.as_slice(), &["all"], &sessions].concat().join(", ")
}

/// A number among the arguments, or what stands for it where it is left out.
fn number<T: std::str::FromStr>(argument: Option<String>, otherwise: T, what: &str) -> Result<T, String> {
    match argument {
        None => Ok(otherwise),
        Some(text) => text.parse().map_err(|_| format!("{what} is a number, not '{text}'")),
    }
}

fn run() -> Result<(), String> {
    let mut arguments = std::env::args().skip(1);
    let kind = arguments
        .next()
        .ok_or_else(|| format!("say what to make: make KIND [SEED [COUNT]], KIND one of {}", kinds()))?;
    let seed = number(arguments.next(), DEFAULT_SEED, "SEED")?;
    let count = arguments.next();
    let mut output = BufWriter::with_capacity(65_536, stdout().lock());
    let mut failed = None;
    let mut take = |line: &[u8]| {
        if let Err(error) = output.write_all(line).and_then(|()| output.write_all(b"\n")) {
            failed.get_or_insert(error);
        }
    };
    if kind == "all" {
        for kind in TrialKind::ALL {
            make::trials(kind, seed, number(count.clone(), kind.default_count(), "COUNT")?, &mut take);
        }
    } else if let Some(kind) = TrialKind::ALL.into_iter().find(|known| known.name() == kind) {
        make::trials(kind, seed, number(count, kind.default_count(), "COUNT")?, &mut take);
    } else if let Some(kind) = SessionKind::ALL.into_iter().find(|known| known.name() == kind) {
        make::session(kind, seed, number(count, SessionKind::DEFAULT_COUNT, "COUNT")?, &mut take);
    } else {
        return Err(format!("'{kind}' is not a kind; known are {}", kinds()));
    }
    let flushed = output.flush().err();
    match failed.or(flushed) {
        None => Ok(()),
        Some(error) => Err(format!("output failed: {error}")),
    }
}

fn main() -> ExitCode {
    match run() {
        Ok(()) => ExitCode::SUCCESS,
        Err(message) => {
            eprintln!("make: {message}");
            ExitCode::FAILURE
        }
    }
}
