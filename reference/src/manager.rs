//! The one door: every call over lent registers, name and picture; fresh, pick, tick, report and error text beside it.

use crate::keys::*;
use crate::picture::*;
use crate::registers::*;
use crate::report::{self, JobLine, Reported};
use crate::sound::is_sound;
use crate::turns::{self, Picked};
use crate::{blocks, channels, jobs};

pub use crate::errors::error_text;
pub use crate::fresh::fresh;

/// A manager that a session or a trial can be run on: the functions of this module, or another version's.
pub trait Manager {
    fn fresh(length: u32, heap_length: u32, picture: &mut [u32]) -> Key;
    fn call(trap: u32, registers: &mut [u32], name: &[u8], picture: &mut [u32]) -> Key;
    fn pick(picture: &mut [u32]) -> Picked;
    fn tick(picture: &mut [u32]) -> Key;
    fn report(top: u32, table: &mut [JobLine], picture: &[u32]) -> Reported;
    fn error_text<'a>(key: Key, system: &'a [u8], driver: &'a [u8]) -> (Key, &'a [u8]);
}

/// The manager of this crate.
pub struct Ordinary;

impl Manager for Ordinary {
    fn fresh(length: u32, heap_length: u32, picture: &mut [u32]) -> Key {
        fresh(length, heap_length, picture)
    }

    fn call(trap: u32, registers: &mut [u32], name: &[u8], picture: &mut [u32]) -> Key {
        call(trap, registers, name, picture)
    }

    fn pick(picture: &mut [u32]) -> Picked {
        pick(picture)
    }

    fn tick(picture: &mut [u32]) -> Key {
        tick(picture)
    }

    fn report(top: u32, table: &mut [JobLine], picture: &[u32]) -> Reported {
        report(top, table, picture)
    }

    fn error_text<'a>(key: Key, system: &'a [u8], driver: &'a [u8]) -> (Key, &'a [u8]) {
        error_text(key, system, driver)
    }
}

/// Answers a trap: the key, which also stands in D0. A refusal writes D0 only.
///
/// Registers that aren't 8 are answered -15 and nothing is written.
pub fn call(trap: u32, registers: &mut [u32], name: &[u8], picture: &mut [u32]) -> Key {
    let Ok(registers) = <&mut Registers>::try_from(registers) else { return BAD_PARAMETER };
    let answer = if is_sound(picture) { call_on_sound(trap, registers, name, picture) } else { Err(NOT_SOUND) };
    let key = answer.err().unwrap_or(DONE);
    registers[D0] = key as u32;
    key
}

/// A call on a picture that is sound: nobody current, unknown trap or call, then the call's own checks.
pub(crate) fn call_on_sound(trap: u32, registers: &mut Registers, name: &[u8], picture: &mut [u32]) -> Answer {
    if picture[CURRENT] == NOBODY {
        return Err(INVALID_JOB);
    }
    match (trap, registers[D0]) {
        (1, 0x0) => jobs::ask_system(registers, picture),
        (1, 0x1) => jobs::create(registers, picture),
        (1, 0x2) => jobs::ask(registers, picture),
        (1, 0x4) => jobs::end_inactive(registers, picture),
        (1, 0x5) => jobs::end_forced(registers, picture),
        (1, 0x6) => blocks::ask_free(registers, picture),
        (1, 0x8) => jobs::suspend(registers, picture),
        (1, 0x9) => jobs::release(registers, picture),
        (1, 0xA) => jobs::activate(registers, picture),
        (1, 0xB) => jobs::set_priority(registers, picture),
        (1, 0x18) => blocks::take(registers, picture),
        (1, 0x19) => blocks::free(registers, picture),
        (2, 0x1) => channels::open(registers, name, picture),
        (2, 0x2) => channels::close(registers, picture),
        (3, 0x0) => channels::pending(registers, picture),
        (3, 0x1) => channels::fetch(registers, picture),
        (3, 0x5) => channels::send(registers, picture),
        _ => Err(BAD_PARAMETER),
    }
}

/// The host's event pick; on an unsound picture number $FFFFFFFF and key -16.
pub fn pick(picture: &mut [u32]) -> Picked {
    if !is_sound(picture) {
        return Picked { number: NOBODY, key: NOT_SOUND };
    }
    turns::pick(picture)
}

/// The host's event tick; on an unsound picture key -16.
pub fn tick(picture: &mut [u32]) -> Key {
    if !is_sound(picture) {
        return NOT_SOUND;
    }
    turns::tick(picture);
    DONE
}

/// The tree of a job, a line of the lent table for each member; on an unsound picture key -16.
pub fn report(top: u32, table: &mut [JobLine], picture: &[u32]) -> Reported {
    let answer = if is_sound(picture) { report::report(JobNumber(top), table, picture) } else { Err(NOT_SOUND) };
    match answer {
        Ok(count) => Reported { key: DONE, count },
        Err(key) => Reported { key, count: 0 },
    }
}

#[cfg(test)]
mod tests {
    use super::*;
    use crate::desk::{Desk, REST};
    use crate::fresh::fresh_picture;

    #[test]
    fn registers_that_are_not_8_are_answered_and_nothing_is_written() {
        for count in (0..8).chain(9..20) {
            let mut registers = vec![0x18; count];
            for mut picture in [fresh_picture(1_024, 256), vec![7; 5]] {
                let before = picture.clone();
                assert_eq!(call(1, &mut registers, b"", &mut picture), BAD_PARAMETER);
                assert_eq!(registers, vec![0x18; count]);
                assert_eq!(picture, before);
            }
        }
    }

    #[test]
    fn the_picture_comes_before_nobody_current_before_an_unknown_call() {
        let mut desk = Desk::fresh();
        for (trap, d0) in
            [(1, 0x3), (1, 0x7), (1, 0xC), (1, 0x17), (1, 0x1A), (2, 0x0), (2, 0x3), (3, 0x2), (3, 0x4), (0, 0), (4, 1)]
        {
            assert_eq!(desk.all(trap, [d0; 8], b"").0, BAD_PARAMETER);
        }
        for d0 in [0x100, 0x1_0000, 0x8000_0000, 0x0100_0018, NOBODY] {
            for trap in 1..=3 {
                assert_eq!(desk.all(trap, [d0, 0, 0, 4, 0, 0, 0, 0], b"").0, BAD_PARAMETER);
            }
        }
        for trap in [0, 4, 0xEF, 0xFFFF_FFFF, 0x101] {
            assert_eq!(desk.all(trap, [0, 0, 0, 0, 0, 0, 0, 0], b"").0, BAD_PARAMETER);
        }
        desk.picture[CURRENT] = NOBODY;
        for (trap, d0) in [(1, 0x0), (1, 0x3), (0, 0), (9, 9), (2, 1), (3, 0), (1, 0x6)] {
            assert_eq!(desk.all(trap, [d0, 1, 1, 1, 1, 1, 1, 1], b"").0, INVALID_JOB);
        }
        desk.picture[SPARE] = 1;
        for (trap, d0) in [(1, 0x0), (1, 0x3), (0, 0), (9, 9), (2, 1), (3, 0), (1, 0x6)] {
            assert_eq!(desk.all(trap, [d0, 1, 1, 1, 1, 1, 1, 1], b"").0, NOT_SOUND);
        }
        assert_eq!(pick(&mut desk.picture), Picked { number: NOBODY, key: NOT_SOUND });
        assert_eq!(tick(&mut desk.picture), NOT_SOUND);
        assert_eq!(pick(&mut []), Picked { number: NOBODY, key: NOT_SOUND });
        assert_eq!(tick(&mut []), NOT_SOUND);
        assert_eq!(call(1, &mut [0; 8], b"", &mut []), NOT_SOUND);
    }

    #[test]
    fn names_beside_other_calls_are_ignored() {
        let mut desk = Desk::fresh();
        assert_eq!(desk.all(1, [0x0, REST, REST, REST, REST, REST, REST, REST], &[0xFF; 2_000]).0, 0);
        let channel = desk.open(0, b"PIPE_4").1[A0];
        assert_eq!(desk.all(3, [0x5, 1, 0, 0, channel, 0, 0, 0], b"SER").0, 0);
        assert_eq!(desk.all(2, [0x2, 1, 0, 0, channel, 0, 0, 0], b"SER").0, 0);
    }
}
