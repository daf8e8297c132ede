//! The linked manager, to be run on lines.

use std::io;
use std::process::ExitCode;

use krowjyvan::constants::{LINE_DEPTH, LINE_LONGWORDS, LINE_NUMBER, LINE_OWNER, LINE_PRIORITY, LINE_SUSPENDED};
use krowjyvan::lent;
use reference::keys::Key;
use reference::manager::Manager;
use reference::report::{JobLine, Reported};
use reference::turns::Picked;

/// The manager of the archive.
pub struct Linked;

impl Manager for Linked {
    fn fresh(length: u32, heap_length: u32, picture: &mut [u32]) -> Key {
        lent::fresh(picture, length, heap_length)
    }

    fn call(trap: u32, registers: &mut [u32], name: &[u8], picture: &mut [u32]) -> Key {
        lent::call(picture, trap, registers, name)
    }

    fn pick(picture: &mut [u32]) -> Picked {
        let (number, key) = lent::pick(picture);
        Picked { number, key }
    }

    fn tick(picture: &mut [u32]) -> Key {
        lent::tick(picture)
    }

    fn report(top: u32, table: &mut [JobLine], picture: &[u32]) -> Reported {
        let mut longwords: Vec<u32> = table.iter().flat_map(longwords_of).collect();
        let (key, count) = lent::report_tree(picture, top, &mut longwords);
        for (line, told) in table.iter_mut().zip(longwords.chunks_exact(LINE_LONGWORDS)) {
            *line = line_of(told);
        }
        Reported { key, count }
    }

    fn error_text<'a>(key: Key, system: &'a [u8], driver: &'a [u8]) -> (Key, &'a [u8]) {
        lent::error_text(key, system, driver)
    }
}

/// A line as the archive is lent it.
fn longwords_of(line: &JobLine) -> [u32; LINE_LONGWORDS] {
    let mut longwords = [0; LINE_LONGWORDS];
    longwords[LINE_NUMBER] = line.number;
    longwords[LINE_OWNER] = line.owner;
    longwords[LINE_DEPTH] = line.depth;
    longwords[LINE_PRIORITY] = line.priority;
    longwords[LINE_SUSPENDED] = u32::from(line.suspended);
    longwords
}

/// A line that the archive was lent.
fn line_of(longwords: &[u32]) -> JobLine {
    JobLine {
        number: longwords[LINE_NUMBER],
        owner: longwords[LINE_OWNER],
        depth: longwords[LINE_DEPTH],
        priority: longwords[LINE_PRIORITY],
        suspended: longwords[LINE_SUSPENDED] == 1,
    }
}

/// How a program ends: where its input or output failed, it says so.
pub fn ended(program: &str, answered: io::Result<()>) -> ExitCode {
    match answered {
        Ok(()) => ExitCode::SUCCESS,
        Err(error) => {
            eprintln!("{program}: input or output failed: {error}");
            ExitCode::FAILURE
        }
    }
}
