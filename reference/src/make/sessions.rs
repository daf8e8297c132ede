//! Sessions: lines that mostly make sense one after another, kept so by running the manager beside them.

use super::world::{Act, Mix, Step, World, LIVELY};
use crate::hexadecimal::{write_byte, write_longword};
use crate::picture::{CURRENT, JOB_MASK, NOBODY};
use crate::random::Random;
use crate::session;

/// The kinds of sessions.
#[derive(Clone, Copy, PartialEq, Eq, Debug)]
pub enum SessionKind {
    Heap,
    Tree,
    Queue,
    Turns,
    Mixed,
    Garbage,
    /// Jobs are made until the tree of job 0 has 32 members, and then every line is a report of it.
    Reports,
}

impl SessionKind {
    pub const ALL: [SessionKind; 7] = [
        SessionKind::Heap,
        SessionKind::Tree,
        SessionKind::Queue,
        SessionKind::Turns,
        SessionKind::Mixed,
        SessionKind::Garbage,
        SessionKind::Reports,
    ];

    pub fn name(self) -> &'static str {
        match self {
            SessionKind::Heap => "session-heap",
            SessionKind::Tree => "session-tree",
            SessionKind::Queue => "session-queue",
            SessionKind::Turns => "session-turns",
            SessionKind::Mixed => "session-mixed",
            SessionKind::Garbage => "session-garbage",
            SessionKind::Reports => "session-reports",
        }
    }

    /// How many lines are made where no count is given.
    pub const DEFAULT_COUNT: usize = 100_000;

    /// Once in how many lines a report is asked for.
    fn lines_to_a_report(self) -> usize {
        match self {
            SessionKind::Tree => 12,
            _ => 40,
        }
    }

    fn mix(self) -> &'static Mix {
        match self {
            SessionKind::Heap => &[
                (Act::Take, 40),
                (Act::Free, 34),
                (Act::Open, 6),
                (Act::Close, 6),
                (Act::AskFree, 3),
                (Act::Create, 2),
                (Act::EndForced, 1),
            ],
            SessionKind::Tree => &[
                (Act::Create, 20),
                (Act::Activate, 16),
                (Act::Ask, 14),
                (Act::EndForced, 4),
                (Act::EndInactive, 3),
                (Act::Take, 4),
                (Act::Open, 3),
                (Act::Suspend, 4),
                (Act::Release, 4),
                (Act::SetPriority, 4),
                (Act::AskSystem, 1),
                (Act::Pick, 10),
                (Act::Tick, 2),
            ],
            SessionKind::Queue => &[
                (Act::Open, 5),
                (Act::Close, 3),
                (Act::Send, 40),
                (Act::Fetch, 34),
                (Act::Pending, 10),
                (Act::Take, 2),
                (Act::Free, 2),
            ],
            SessionKind::Turns => &[
                (Act::Pick, 60),
                (Act::Tick, 14),
                (Act::Create, 4),
                (Act::Activate, 6),
                (Act::SetPriority, 3),
                (Act::Suspend, 4),
                (Act::Release, 2),
                (Act::EndForced, 1),
            ],
            SessionKind::Mixed | SessionKind::Garbage => LIVELY,
            SessionKind::Reports => &[(Act::Activate, 3), (Act::Pick, 2)],
        }
    }
}

pub fn make(kind: SessionKind, random: &mut Random, count: usize, take: &mut dyn FnMut(&[u8])) {
    let mut world = World { picture: session::fresh_picture().to_vec() };
    let mut line = Vec::new();
    for _ in 0..count {
        line.clear();
        if kind == SessionKind::Reports {
            write_toward_a_full_tree(&world, random, &mut line);
        } else if random.once_in(kind.lines_to_a_report()) {
            let top = if random.once_in(3) { 0 } else { world.some_job(random) };
            write_report(top, &mut line);
        } else {
            let step = world.step(random, kind.mix());
            write_step(&step, &mut line);
        }
        if random.once_in(6) {
            line.make_ascii_lowercase();
        }
        if kind == SessionKind::Garbage && !random.once_in(4) {
            spoil(random, &mut line);
        }
        take(&line);
        // The session itself says what came of the line, spoilt or not.
        session::answer_line(Some(&line), &mut world.picture, &mut Vec::new());
    }
}

fn write_step(step: &Step, line: &mut Vec<u8>) {
    match step {
        Step::Trap { trap, registers, name } => {
            write_byte(*trap as u8, line);
            registers.iter().for_each(|&register| write_longword(register, line));
            name.iter().for_each(|&byte| write_byte(byte, line));
        }
        Step::Pick => line.extend(b"F0"),
        Step::Tick => line.extend(b"F1"),
    }
}

/// The report of job 0 where all jobs are under it; before that, mostly a new job of any of them, as small as can be.
fn write_toward_a_full_tree(world: &World, random: &mut Random, line: &mut Vec<u8>) {
    if world.picture[JOB_MASK] == u32::MAX {
        write_report(0, line);
    } else if world.picture[CURRENT] == NOBODY {
        write_step(&Step::Pick, line);
    } else if random.once_in(3) {
        write_step(&world.step(random, SessionKind::Reports.mix()), line);
    } else {
        let owner = random.one_of(&world.jobs());
        write_step(&Step::Trap { trap: 1, registers: [0x1, owner, 0, 4, 0, 0, 0, 0], name: Vec::new() }, line);
    }
}

fn write_report(top: u32, line: &mut Vec<u8>) {
    line.extend(b"F2");
    write_longword(top, line);
}

/// Makes a line bad in some way, or strange but good. A line never gains a line feed.
fn spoil(random: &mut Random, line: &mut Vec<u8>) {
    match random.below(13) {
        0 => line.clear(),
        1 => line.truncate(random.below(line.len() + 1)),
        2 => line.push(random.one_of(b"0aF \r-g")),
        3 => line.extend(b"00"),
        4 => {
            if let Some(place) = (!line.is_empty()).then(|| random.below(line.len())) {
                line[place] = random.one_of(b"gGxX -+\r\0\x7F\xFF:@`/");
            }
        }
        5 => {
            let length = random.one_of(&[510, 511, 512, 513, 514, 600, 2_000, 70_000]);
            line.resize(if random.once_in(4) { length } else { length.min(514) }, b'4');
        }
        6 => *line = (0..random.below(90)).map(|_| random.longword() as u8).filter(|&byte| byte != b'\n').collect(),
        7 => line.iter_mut().for_each(|digit| *digit = random.one_of(b"0123456789abcdefABCDEF")),
        8 => {
            line.clear();
            write_byte(random.longword() as u8, line);
            for _ in 0..8 {
                write_longword(random.longword() >> random.below(32), line);
            }
        }
        9 => {
            let trap = random.one_of(b"012345FfE");
            if let [_, second, ..] = line.as_mut_slice() {
                *second = trap;
            }
        }
        10 => line.insert(0, random.one_of(b"0 Ff")),
        11 => {
            let digits = random.one_of(&[0, 1, 2, 6, 7, 8, 9, 10, 16, 62, 63, 64, 65, 66, 510, 511]);
            line.clear();
            line.extend(random.one_of(&[b"F2", b"f2"]));
            line.resize(2 + digits, b'0');
        }
        _ => {
            line.resize(66, b'0');
            for _ in 0..random.below(224) {
                write_byte(random.longword() as u8, line);
            }
        }
    }
}
