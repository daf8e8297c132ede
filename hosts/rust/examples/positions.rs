//! MT.CJOB and IO.OPEN with few and with many other entries in their table, for tools/positions.
//!
//! positions MANAGER TABLE OTHERS EVENT ROUNDS: each round makes the event on a copy of one picture, so that all rounds are alike.

mod linked;

use std::env;
use std::io::{stdout, Write};
use std::process::ExitCode;

use linked::{ended, Linked};
use reference::keys::{Key, BAD_PARAMETER, CHANNEL_NOT_OPEN, DONE, INVALID_JOB};
use reference::manager::{Manager, Ordinary};
use reference::picture::{channel_record, job_record, number, LAST_CHANNEL_TAG, LAST_JOB_TAG, LAST_TAG};
use reference::random::Random;
use reference::registers::{A0, D0, D1, D3};

const LENGTH: usize = 4_096;
const HEAP_LENGTH: u32 = 1_024;

#[derive(Clone, Copy)]
enum Table {
    Jobs,
    Channels,
}

/// What a round does with its copy of the picture.
#[derive(Clone, Copy)]
enum Event {
    /// Nothing.
    Copy,
    /// A call of no trap, which is refused behind the test for soundness.
    Test,
    /// The same, where the tags come from all over a term.
    Scattered,
    /// The call that makes an entry, where no tag is left: it is refused behind the search for a position.
    Refused,
    /// The call that makes an entry.
    Done,
}

/// A picture and the registers that a call is given.
struct Hub {
    picture: Vec<u32>,
    registers: [u32; 8],
}

impl Hub {
    fn call<M: Manager>(&mut self, trap: u32, registers: &[(usize, u32)], name: &str) -> Key {
        self.registers = [0; 8];
        for &(register, value) in registers {
            self.registers[register] = value;
        }
        M::call(trap, &mut self.registers, name.as_bytes(), &mut self.picture)
    }

    /// Makes a job with so much data space, or a channel with so long a queue.
    fn make<M: Manager>(&mut self, table: Table, bytes: u32) -> Key {
        match table {
            Table::Jobs => self.call::<M>(1, &[(D0, 1), (D3, bytes)], ""),
            Table::Channels => self.call::<M>(2, &[(D0, 1)], if bytes == 16 { "PIPE_16" } else { "PIPE_64" }),
        }
    }

    /// A picture with so many entries at the lowest positions, job 0 among the jobs. The lowest block of the table's area is free and
    /// too short for them, so that placing the measured entry looks at one block, however many there are.
    fn with_others<M: Manager>(table: Table, others: usize) -> Hub {
        let mut hub = Hub { picture: vec![0; LENGTH], registers: [0; 8] };
        assert_eq!(M::fresh(LENGTH as u32, HEAP_LENGTH, &mut hub.picture), DONE);
        let (taken, given_back, register, others) = match table {
            Table::Jobs => (hub.call::<M>(1, &[(D0, 1), (D3, 48)], ""), 4, D1, others.saturating_sub(1)),
            Table::Channels => (hub.call::<M>(1, &[(D0, 0x18), (D1, 48)], ""), 0x19, A0, others),
        };
        assert_eq!(taken, DONE);
        let lowest = hub.registers[register];
        for _ in 1..others {
            assert_eq!(hub.make::<M>(table, 64), DONE);
        }
        assert_eq!(hub.call::<M>(1, &[(D0, given_back), (register, lowest)], ""), DONE);
        assert_eq!(M::pick(&mut hub.picture).number, 0);
        if others > 0 {
            assert_eq!(hub.make::<M>(table, 64), DONE);
        }
        hub
    }

    /// Gives each entry but job 0 a tag from anywhere in the series.
    fn scatter(&mut self, table: Table, others: usize) {
        let (first, record): (_, fn(usize) -> usize) = match table {
            Table::Jobs => (1, job_record),
            Table::Channels => (0, channel_record),
        };
        let mut random = Random::new(3);
        let mut tags = Vec::new();
        for k in first..others {
            let tag = loop {
                let tag = random.between(1, LAST_TAG);
                if !tags.contains(&tag) {
                    break tag;
                }
            };
            tags.push(tag);
            self.picture[record(k)] = number(tag, k);
        }
    }
}

fn rounds<M: Manager>(table: Table, others: usize, event: Event, rounds: usize) {
    let mut before = Hub::with_others::<M>(table, others);
    let (last_tag, no_tag) = match table {
        Table::Jobs => (LAST_JOB_TAG, INVALID_JOB),
        Table::Channels => (LAST_CHANNEL_TAG, CHANNEL_NOT_OPEN),
    };
    if let Event::Scattered | Event::Refused = event {
        before.picture[last_tag] = LAST_TAG;
    }
    if let Event::Scattered = event {
        before.scatter(table, others);
    }
    let mut hub = Hub { picture: before.picture.clone(), registers: [0; 8] };
    for _ in 0..rounds {
        hub.picture.copy_from_slice(&before.picture);
        match event {
            Event::Copy => {}
            Event::Test | Event::Scattered => assert_eq!(hub.call::<M>(0, &[], ""), BAD_PARAMETER),
            Event::Refused => assert_eq!(hub.make::<M>(table, 16), no_tag),
            Event::Done => assert_eq!(hub.make::<M>(table, 16), DONE),
        }
    }
}

fn main() -> ExitCode {
    let said: Vec<String> = env::args().skip(1).collect();
    let words: Vec<&str> = said.iter().map(String::as_str).collect();
    let [manager, table, others, event, count] = words[..] else { return ExitCode::FAILURE };
    let table = if table == "jobs" { Table::Jobs } else { Table::Channels };
    let event = match event {
        "copy" => Event::Copy,
        "test" => Event::Test,
        "scattered" => Event::Scattered,
        "refused" => Event::Refused,
        _ => Event::Done,
    };
    let (Ok(others), Ok(count)) = (others.parse(), count.parse()) else { return ExitCode::FAILURE };
    match manager {
        "linked" => rounds::<Linked>(table, others, event, count),
        _ => rounds::<Ordinary>(table, others, event, count),
    }
    ended("positions", writeln!(stdout(), "done"))
}
