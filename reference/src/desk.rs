//! A desk for tests: calls on a picture, each of which is checked to keep the general promises.

use crate::fresh::fresh_picture;
use crate::keys::Key;
use crate::manager;
use crate::picture::*;
use crate::registers::*;
use crate::report::{JobLine, Reported};
use crate::sound::{broken, is_sound};
use crate::turns::Picked;

/// What registers that a test doesn't name hold.
pub const REST: u32 = 0x1357_9BDF;

pub struct Desk {
    pub picture: Vec<u32>,
}

impl Desk {
    /// The desk bench's fresh picture.
    pub fn fresh() -> Self {
        Desk::sized(1_024, 256)
    }

    pub fn sized(length: u32, heap_length: u32) -> Self {
        Desk { picture: fresh_picture(length, heap_length) }
    }

    /// A call with all eight registers. A refusal writes D0 only; a sound picture stays sound.
    pub fn all(&mut self, trap: u32, registers: Registers, name: &[u8]) -> (Key, Registers) {
        let before = self.picture.clone();
        let mut after = registers;
        let key = manager::call(trap, &mut after, name, &mut self.picture);
        assert_eq!(after[D0], key as u32, "D0 holds the key");
        if key != 0 {
            assert_eq!(after[D1..], registers[D1..], "a refusal writes D0 only");
            assert_eq!(self.picture, before, "a refusal leaves the picture");
        }
        if is_sound(&before) {
            assert_eq!(broken(&self.picture), [], "a sound picture stays sound");
        }
        (key, after)
    }

    /// Trap 1 with D1, D2, D3 and A1.
    pub fn job_call(&mut self, call: u32, d1: u32, d2: u32, d3: u32, a1: u32) -> (Key, Registers) {
        self.all(1, [call, d1, d2, d3, REST, a1, REST, REST], b"")
    }

    pub fn create(&mut self, d1: u32, d2: u32, d3: u32) -> (Key, Registers) {
        self.job_call(0x1, d1, d2, d3, 0x4000)
    }

    /// A job that is surely created, owned by the current job or unowned, made active by hand.
    pub fn job(&mut self, owned: bool, priority: u32) -> u32 {
        let owner = if owned { self.picture[CURRENT] } else { NOBODY };
        self.job_of(owner, priority)
    }

    /// A job that is surely created for this owner, or for nobody, made active by hand.
    pub fn job_of(&mut self, owner: u32, priority: u32) -> u32 {
        let (key, after) = self.create(owner, 12, 4);
        assert_eq!(key, 0);
        *self.field(after[D1], job::PRIORITY) = priority;
        after[D1]
    }

    pub fn take(&mut self, bytes: u32, owner: u32) -> (Key, Registers) {
        self.all(1, [0x18, bytes, owner, REST, REST, REST, REST, REST], b"")
    }

    pub fn free(&mut self, room: u32) -> (Key, Registers) {
        self.all(1, [0x19, REST, REST, REST, room, REST, REST, REST], b"")
    }

    pub fn open(&mut self, owner: u32, name: &[u8]) -> (Key, Registers) {
        self.all(2, [0x1, owner, REST, REST, REST, REST, REST, REST], name)
    }

    pub fn close(&mut self, channel: u32) -> (Key, Registers) {
        self.all(2, [0x2, REST, REST, REST, channel, REST, REST, REST], b"")
    }

    pub fn queue(&mut self, call: u32, channel: u32, d1: u32, d3: u32) -> (Key, Registers) {
        self.all(3, [call, d1, REST, d3, channel, REST, REST, REST], b"")
    }

    pub fn pick(&mut self) -> Picked {
        let picked = manager::pick(&mut self.picture);
        assert_eq!(broken(&self.picture), []);
        picked
    }

    pub fn tick(&mut self) {
        assert_eq!(manager::tick(&mut self.picture), 0);
        assert_eq!(broken(&self.picture), []);
    }

    /// The lines of a report over a table of so many. A refusal writes none, and the lines behind the written ones stay.
    pub fn report(&self, top: u32, lines: usize) -> Result<Vec<JobLine>, Key> {
        const KEPT: JobLine = JobLine { number: REST, owner: REST, depth: REST, priority: REST, suspended: true };
        let mut table = vec![KEPT; lines];
        let Reported { key, count } = manager::report(top, &mut table, &self.picture);
        assert!(table[count..].iter().all(|line| *line == KEPT), "later lines keep what they held");
        table.truncate(count);
        if key == 0 {
            return Ok(table);
        }
        assert_eq!(count, 0, "a refusal writes no line");
        Err(key)
    }

    pub fn field(&mut self, number: u32, field: usize) -> &mut u32 {
        &mut self.picture[job_record(position(number)) + field]
    }

    pub fn record(&self, number: u32) -> [u32; JOB_RECORD] {
        *self.picture[job_record(position(number))..].first_chunk().unwrap()
    }

    pub fn header(&self, at: usize) -> [u32; 4] {
        *self.picture[at..].first_chunk().unwrap()
    }

    pub fn current(&self) -> u32 {
        self.picture[CURRENT]
    }

    /// The picture with nothing but these longwords changed is what came of the calls since.
    pub fn changed_only(&self, before: &[u32], changes: &[(usize, u32)]) {
        let mut expected = before.to_vec();
        changes.iter().for_each(|&(place, longword)| expected[place] = longword);
        for (index, (now, then)) in self.picture.iter().zip(&expected).enumerate() {
            assert_eq!(now, then, "longword {index}");
        }
    }
}
