//! A picture that a maker works on, and random steps that mostly make sense on it.

use crate::fresh;
use crate::keys::Key;
use crate::manager;
use crate::picture::*;
use crate::random::Random;
use crate::registers::*;
use crate::turns::{self, Picked};

/// One step of a history.
pub enum Step {
    Trap { trap: u32, registers: Registers, name: Vec<u8> },
    Pick,
    Tick,
}

/// What a step is about.
#[derive(Clone, Copy, PartialEq, Eq, Debug)]
pub enum Act {
    AskSystem,
    Create,
    Ask,
    EndInactive,
    EndForced,
    AskFree,
    Suspend,
    Release,
    Activate,
    SetPriority,
    Take,
    Free,
    Open,
    Close,
    Pending,
    Fetch,
    Send,
    Pick,
    Tick,
}

impl Act {
    /// The trap and the call of an act that is one.
    pub fn code(self) -> Option<(u32, u32)> {
        Some(match self {
            Act::AskSystem => (1, 0x0),
            Act::Create => (1, 0x1),
            Act::Ask => (1, 0x2),
            Act::EndInactive => (1, 0x4),
            Act::EndForced => (1, 0x5),
            Act::AskFree => (1, 0x6),
            Act::Suspend => (1, 0x8),
            Act::Release => (1, 0x9),
            Act::Activate => (1, 0xA),
            Act::SetPriority => (1, 0xB),
            Act::Take => (1, 0x18),
            Act::Free => (1, 0x19),
            Act::Open => (2, 0x1),
            Act::Close => (2, 0x2),
            Act::Pending => (3, 0x0),
            Act::Fetch => (3, 0x1),
            Act::Send => (3, 0x5),
            Act::Pick | Act::Tick => return None,
        })
    }
}

/// How often each act is chosen.
pub type Mix = [(Act, usize)];

/// Every act, in measures that keep a picture lively.
pub const LIVELY: &Mix = &[
    (Act::AskSystem, 1),
    (Act::Create, 14),
    (Act::Ask, 3),
    (Act::EndInactive, 2),
    (Act::EndForced, 3),
    (Act::AskFree, 1),
    (Act::Suspend, 5),
    (Act::Release, 3),
    (Act::Activate, 14),
    (Act::SetPriority, 4),
    (Act::Take, 12),
    (Act::Free, 6),
    (Act::Open, 10),
    (Act::Close, 4),
    (Act::Pending, 2),
    (Act::Fetch, 5),
    (Act::Send, 12),
    (Act::Pick, 10),
    (Act::Tick, 4),
];

/// The trap calls, for trials of one of them.
pub const CALLS: [Act; 17] = [
    Act::AskSystem,
    Act::Create,
    Act::Ask,
    Act::EndInactive,
    Act::EndForced,
    Act::AskFree,
    Act::Suspend,
    Act::Release,
    Act::Activate,
    Act::SetPriority,
    Act::Take,
    Act::Free,
    Act::Open,
    Act::Close,
    Act::Pending,
    Act::Fetch,
    Act::Send,
];

/// Sizes N and H that pictures of trials have.
const SIZES: [(usize, usize); 9] = [
    (1_024, 256),
    (1_024, 256),
    (1_024, 128),
    (1_024, 512),
    (1_028, 256),
    (1_504, 360),
    (2_048, 1_000),
    (4_096, 2_048),
    (16_384, 8_192),
];

/// The most ticks for which nobody is ready.
const LONGEST_SILENCE: i32 = 8;

#[derive(Clone)]
pub struct World {
    pub picture: Vec<u32>,
}

impl World {
    /// A fresh picture, of sizes that need not be good but leave room for the tables.
    pub fn new(length: usize, heap_length: usize) -> Self {
        let mut picture = vec![0; length];
        fresh::write(heap_length, &mut picture);
        World { picture }
    }

    /// A fresh picture of one of the usual sizes.
    pub fn usual(random: &mut Random) -> Self {
        let (length, heap_length) = random.one_of(&SIZES);
        World::new(length, heap_length)
    }

    /// A picture after a history of so many lively steps.
    pub fn lively(random: &mut Random, steps: usize) -> Self {
        let mut world = World::usual(random);
        world.live(random, steps, LIVELY);
        world
    }

    pub fn live(&mut self, random: &mut Random, steps: usize, mix: &Mix) {
        for _ in 0..steps {
            let step = self.step(random, mix);
            self.take_step(&step);
        }
    }

    /// A trap call on the picture, which is sound but perhaps for its sizes.
    pub fn call(&mut self, trap: u32, registers: Registers, name: &[u8]) -> (Key, Registers) {
        let mut after = registers;
        let key = manager::call_on_sound(trap, &mut after, name, &mut self.picture).err().unwrap_or(0);
        after[D0] = key as u32;
        (key, after)
    }

    pub fn take_step(&mut self, step: &Step) {
        match step {
            Step::Trap { trap, registers, name } => {
                self.call(*trap, *registers, name);
            }
            Step::Pick => {
                turns::pick(&mut self.picture);
            }
            Step::Tick => turns::tick(&mut self.picture),
        }
    }

    pub fn pick(&mut self) -> Picked {
        turns::pick(&mut self.picture)
    }

    /// Makes a ready job current by hand.
    pub fn make_current(&mut self, number: u32) {
        self.picture[CURRENT] = number;
    }

    pub fn has_current(&self) -> bool {
        self.picture[CURRENT] != NOBODY
    }

    /// The field of the record of a live job.
    pub fn job_field(&mut self, number: u32, field: usize) -> &mut u32 {
        &mut self.picture[job_record(position(number)) + field]
    }

    // Calls that succeed, for pictures that are built on purpose.

    /// Creates a job owned by the current job, or by nobody, with so much room.
    pub fn create(&mut self, owned: bool, room: u32) -> u32 {
        let owner = if owned { self.picture[CURRENT] } else { NOBODY };
        self.create_for(owner, room)
    }

    /// Creates a job owned by the job with this number, or by nobody, with so much room.
    pub fn create_for(&mut self, owner: u32, room: u32) -> u32 {
        let (key, after) = self.call(1, [0x1, owner, room - 4, 4, 0, 0x4000, 0, 0], b"");
        assert_eq!(key, 0, "a job of {room} bytes has room");
        after[D1]
    }

    pub fn take(&mut self, owner: u32, bytes: u32) -> u32 {
        let (key, after) = self.call(1, [0x18, bytes, owner, 0, 0, 0, 0, 0], b"");
        assert_eq!(key, 0, "a plain block of {bytes} bytes has room");
        after[A0]
    }

    pub fn free(&mut self, room: u32) {
        assert_eq!(self.call(1, [0x19, 0, 0, 0, room, 0, 0, 0], b"").0, 0, "a plain block is freed");
    }

    pub fn open(&mut self, owner: u32, length: u32) -> u32 {
        let (key, after) = self.call(2, [0x1, owner, 0, 0, 0, 0, 0, 0], format!("PIPE_{length}").as_bytes());
        assert_eq!(key, 0, "a queue of {length} bytes has room");
        after[A0]
    }

    pub fn send(&mut self, channel: u32, byte: u8) -> Key {
        self.call(3, [0x5, u32::from(byte), 0, 0, channel, 0, 0, 0], b"").0
    }

    pub fn fetch(&mut self, channel: u32) -> Key {
        self.call(3, [0x1, 0, 0, 0, channel, 0, 0, 0], b"").0
    }

    // What stands in the picture.

    pub fn jobs(&self) -> Vec<u32> {
        positions(self.picture[JOB_MASK]).map(|k| self.picture[job_record(k)]).collect()
    }

    pub fn channels(&self) -> Vec<u32> {
        positions(self.picture[CHANNEL_MASK]).map(|k| self.picture[channel_record(k)]).collect()
    }

    /// The headers of one area, as far as the walk goes; the picture need not be sound.
    fn headers_of(&self, area: std::ops::Range<usize>) -> Vec<usize> {
        let mut headers = Vec::new();
        let mut at = area.start;
        let end = area.end.min(self.picture.len());
        while at + block::HEADER <= end && self.picture[at] >= block::HEADER_BYTES {
            headers.push(at);
            at += (self.picture[at] / 4) as usize;
        }
        headers
    }

    pub fn heap_headers(&self) -> Vec<usize> {
        self.headers_of(crate::blocks::heap(&self.picture))
    }

    pub fn transient_headers(&self) -> Vec<usize> {
        self.headers_of(crate::blocks::transient(&self.picture))
    }

    /// The headers of a kind in both areas.
    pub fn blocks_of(&self, kind: u32) -> Vec<usize> {
        let mut headers = self.heap_headers();
        headers.extend(self.transient_headers());
        headers.retain(|at| self.picture[at + block::KIND] == kind);
        headers
    }

    // Random registers that mostly make sense.

    /// A job's number: mostly a live one, else the current job's bit 15, a stale number, or anything.
    pub fn some_job(&self, random: &mut Random) -> u32 {
        let live = random.one_of(&self.jobs());
        match random.below(20) {
            0 => NOBODY,
            1 => random.one_of(&[0x0000_FFFF, 0x0000_8000, 0x1234_8001, 0x7FFF_FFFF]),
            2 => live.wrapping_add(0x1_0000),
            3 => random.longword(),
            4 => number(random.between(0, self.picture[LAST_JOB_TAG] + 1), random.below(34)),
            _ => live,
        }
    }

    pub fn some_channel(&self, random: &mut Random) -> u32 {
        let channels = self.channels();
        let live = if channels.is_empty() { number(1, 0) } else { random.one_of(&channels) };
        match random.below(16) {
            0 => live.wrapping_add(0x1_0000),
            1 => random.longword(),
            2 => number(random.between(0, self.picture[LAST_CHANNEL_TAG] + 1), random.below(34)),
            3 => random.one_of(&[NOBODY, 0, 0x0000_FFFF, self.picture[CURRENT]]),
            _ => live,
        }
    }

    /// The first byte of a plain block's room, mostly.
    pub fn some_room(&self, random: &mut Random) -> u32 {
        let plain = self.blocks_of(block::PLAIN);
        let all = [self.heap_headers(), self.transient_headers()].concat();
        let header = if plain.is_empty() || random.once_in(8) { random.one_of(&all) } else { random.one_of(&plain) };
        let room = 4 * header as u32 + block::HEADER_BYTES;
        match random.below(16) {
            0 => room.wrapping_add(random.one_of(&[1, 4, 16, 0xFFFF_FFF0, 0xFFFF_FFFF])),
            1 => random.longword(),
            _ => room,
        }
    }

    /// A name, mostly a good one for a short queue.
    pub fn some_name(random: &mut Random) -> Vec<u8> {
        let length = match random.below(8) {
            0 => random.between(1, 32_766),
            1 => random.between(1, 400),
            _ => random.between(1, 40),
        };
        let mut name = format!("PIPE_{length}").into_bytes();
        for character in &mut name {
            if random.once_in(3) {
                character.make_ascii_lowercase();
            }
        }
        match random.below(14) {
            0 => name.truncate(random.below(6)),
            1 => name.extend(b"0_x 9".iter().take(random.below(5) + 1)),
            2 => {
                let place = random.below(name.len());
                name[place] = random.longword() as u8;
            }
            _ => {}
        }
        name
    }

    /// Whether some job is ready.
    fn has_ready(&self) -> bool {
        self.has_ready_within(0)
    }

    /// Whether some job is ready, or will be after so many ticks.
    fn has_ready_within(&self, ticks: i32) -> bool {
        positions(self.picture[JOB_MASK]).map(job_record).any(|record| {
            active(self.picture[record + job::PRIORITY])
                && (0..=ticks).contains(&(self.picture[record + job::TIMEOUT] as i32))
        })
    }

    /// A step of some act, drawn from the mix; mostly a pick or tick where nobody is current.
    ///
    /// A step after which nobody would ever be ready again is left out, so that a history does not end in silence.
    pub fn step(&self, random: &mut Random, mix: &Mix) -> Step {
        if !self.has_current() && !random.once_in(10) {
            return if self.has_ready() { Step::Pick } else { Step::Tick };
        }
        let step = self.step_of_mix(random, mix);
        let mut after = self.clone();
        after.take_step(&step);
        if after.has_ready_within(LONGEST_SILENCE) {
            step
        } else {
            Step::Tick
        }
    }

    fn step_of_mix(&self, random: &mut Random, mix: &Mix) -> Step {
        let mut left = random.below(mix.iter().map(|&(_, weight)| weight).sum());
        let mut act = Act::Pick;
        for &(next, weight) in mix {
            act = next;
            if left < weight {
                break;
            }
            left -= weight;
        }
        self.step_of(random, act)
    }

    /// A step of this act. Registers that the call doesn't read are anything.
    pub fn step_of(&self, random: &mut Random, act: Act) -> Step {
        let Some((trap, call)) = act.code() else {
            return if act == Act::Pick { Step::Pick } else { Step::Tick };
        };
        let mut registers: Registers = std::array::from_fn(|_| random.longword());
        registers[D0] = call;
        let mut name = Vec::new();
        match act {
            Act::AskSystem | Act::AskFree | Act::Pick | Act::Tick => {}
            Act::Create => {
                registers[D1] = match random.below(3) {
                    0 => random.one_of(&[NOBODY, NOBODY, 0x8000_0000]),
                    _ => self.some_job(random),
                };
                registers[D2] = match random.below(20) {
                    0 => random.longword(),
                    1 => random.between(0, 4 * self.picture.len() as u32),
                    _ => random.between(0, 60),
                };
                registers[D3] = match random.below(20) {
                    0 => random.below(4) as u32,
                    1 => random.longword(),
                    _ => random.between(4, 40),
                };
            }
            Act::Ask => {
                registers[D2] = if random.once_in(3) { 0 } else { self.some_job(random) };
                registers[D1] = if random.once_in(4) { registers[D2] } else { self.some_job(random) };
            }
            Act::EndInactive | Act::EndForced => {
                registers[D1] = self.some_job(random);
            }
            Act::Suspend => {
                registers[D1] = self.some_job(random);
                registers[D3] = registers[D3] & 0xFFFF_0000
                    | match random.below(10) {
                        0 => random.longword() & 0xFFFF,
                        1 => 0,
                        2 | 3 => 0xFFFF,
                        _ => random.between(1, 5),
                    };
                registers[A1] = if random.once_in(16) { random.longword() } else { 0 };
            }
            Act::Release => registers[D1] = self.some_job(random),
            Act::Activate => {
                let inactive: Vec<u32> = positions(self.picture[JOB_MASK])
                    .filter(|&k| !active(self.picture[job_record(k) + job::PRIORITY]))
                    .map(|k| self.picture[job_record(k)])
                    .collect();
                registers[D1] = if inactive.is_empty() || random.once_in(5) {
                    self.some_job(random)
                } else {
                    random.one_of(&inactive)
                };
                registers[D2] = registers[D2] & 0xFFFF_FF00 | some_priority(random);
                registers[D3] = registers[D3] & 0xFFFF_0000
                    | match random.below(12) {
                        0 => random.longword() & 0xFFFF,
                        1..=3 => 0xFFFF,
                        _ => 0,
                    };
            }
            Act::SetPriority => {
                registers[D1] = self.some_job(random);
                registers[D2] = registers[D2] & 0xFFFF_FF00 | some_priority(random);
            }
            Act::Take => {
                registers[D1] = match random.below(16) {
                    0 => random.longword(),
                    1 => random.between(0, 4 * self.picture[HEAP_LENGTH]),
                    _ => random.between(1, 80),
                };
                registers[D2] = self.some_job(random);
            }
            Act::Free => registers[A0] = self.some_room(random),
            Act::Open => {
                registers[D1] = self.some_job(random);
                name = World::some_name(random);
            }
            Act::Close => registers[A0] = self.some_channel(random),
            Act::Pending | Act::Fetch | Act::Send => {
                registers[A0] = self.some_channel(random);
                registers[D3] = if random.once_in(16) { random.longword() } else { registers[D3] & 0xFFFF_0000 };
            }
        }
        Step::Trap { trap, registers, name }
    }
}

/// A low byte for a priority, mostly a good one.
fn some_priority(random: &mut Random) -> u32 {
    match random.below(12) {
        0 => random.below(256) as u32,
        1 => random.one_of(&[0, 128, 255]),
        2 => 127,
        3 => 1,
        _ => random.between(1, 127),
    }
}
