//! The picture, and the calls on it.

use std::fmt;
use std::ops::Range;

use crate::constants::*;
use crate::lent;
use crate::{ChannelNumber, JobNumber, Key};

/// The registers D0, D1, D2, D3, A0, A1, A2, A3.
pub type Registers = [u32; REGISTERS];

/// All that the manager knows of a hub. Any longwords make a picture; one that isn't sound is answered [`Key::NOT_SOUND`].
#[derive(Clone, PartialEq, Eq)]
pub struct Picture {
    longwords: Vec<u32>,
}

/// What [`Picture::mt_inf`] tells.
#[derive(Clone, Copy, PartialEq, Eq, Hash, Debug)]
pub struct Information {
    /// The current job.
    pub current: JobNumber,
    /// The version's four characters.
    pub version: [u8; 4],
}

/// What [`Picture::mt_cjob`] made.
#[derive(Clone, Copy, PartialEq, Eq, Hash, Debug)]
pub struct Created {
    /// The new job.
    pub job: JobNumber,
    /// The byte offset of its room: its longwords start at index `first_byte / 4`.
    pub first_byte: u32,
}

/// What [`Picture::mt_jinf`] tells of a job.
#[derive(Clone, Copy, PartialEq, Eq, Hash, Debug)]
pub struct JobInformation {
    /// The next younger job of the tree, or none.
    pub next: Option<JobNumber>,
    /// Its owner, or none.
    pub owner: Option<JobNumber>,
    /// Its priority, 0 where it isn't active.
    pub priority: u8,
    /// Whether it is suspended.
    pub suspended: bool,
    /// The byte offset of its room, 0 for job 0.
    pub first_byte: u32,
}

/// What [`Picture::report_tree`] tells of a job.
#[derive(Clone, Copy, PartialEq, Eq, Hash, Debug)]
pub struct JobLine {
    /// The job.
    pub number: JobNumber,
    /// Its owner, or none.
    pub owner: Option<JobNumber>,
    /// How far below the top it is: 0 for the top, 1 for a job that the top owns, 2 for one that such a job owns, and so on.
    pub depth: u32,
    /// Its priority, 0 where it isn't active.
    pub priority: u8,
    /// Whether it is suspended.
    pub suspended: bool,
}

impl JobLine {
    /// The line that the longwords of a table's line are.
    fn read(longwords: &[u32]) -> JobLine {
        JobLine {
            number: JobNumber(longwords[LINE_NUMBER]),
            owner: JobNumber::named(longwords[LINE_OWNER]),
            depth: longwords[LINE_DEPTH],
            priority: longwords[LINE_PRIORITY] as u8,
            suspended: longwords[LINE_SUSPENDED] != 0,
        }
    }
}

/// What the calls that change a job's turns answer.
#[derive(Clone, Copy, PartialEq, Eq, Hash, Debug)]
pub struct Record {
    /// The job's own number.
    pub job: JobNumber,
    /// The byte offset of its record.
    pub byte: u32,
}

/// Room on the heap.
#[derive(Clone, Copy, PartialEq, Eq, Hash, Debug)]
pub struct Room {
    /// The byte offset of its first byte.
    pub first_byte: u32,
    /// How many bytes can be used.
    pub length: u32,
}

impl Room {
    /// Where its longwords stand in the picture: they may be written without a thought.
    pub fn indices(self) -> Range<usize> {
        let first = self.first_byte as usize / 4;
        first..first + self.length as usize / 4
    }
}

/// What a pick tells.
#[derive(Clone, Copy, PartialEq, Eq, Hash, Debug)]
pub struct Picked {
    /// The job that has the turn, none where no job is ready.
    pub job: Option<JobNumber>,
    /// The key that is delivered to it, 0 for none: any value that the removal of a job that it waited for has given.
    pub key: i32,
}

impl Picked {
    /// The key that is delivered, or none.
    pub fn delivered(self) -> Option<Key> {
        Key::check(self.key).err()
    }
}

/// The registers of a call before it.
struct Call(Registers);

impl Call {
    fn new(code: u32) -> Call {
        let mut registers = [0; REGISTERS];
        registers[D0] = code;
        Call(registers)
    }

    fn with(mut self, register: usize, longword: u32) -> Call {
        self.0[register] = longword;
        self
    }

    /// Makes the call, and gives the registers after it.
    fn on(mut self, picture: &mut Picture, trap: u32, name: &[u8]) -> Result<Registers, Key> {
        picture.trap(trap, &mut self.0, name)?;
        Ok(self.0)
    }
}

/// A signed word as a register holds it.
fn word(signed: i16) -> u32 {
    i32::from(signed) as u32
}

fn record(registers: Registers) -> Record {
    Record { job: JobNumber(registers[D1]), byte: registers[A0] }
}

impl fmt::Debug for Picture {
    fn fmt(&self, f: &mut fmt::Formatter<'_>) -> fmt::Result {
        let heads = self.longwords.get(..FIRST_JOB).unwrap_or(&self.longwords);
        write!(f, "Picture of {} longwords, {heads:X?} ..", self.longwords.len())
    }
}

impl Picture {
    /// A fresh picture of `n` longwords, `h` of them the heap: job 0 is there, ready at priority 32, and current.
    ///
    /// [`Key::OUT_OF_RANGE`] unless `n` is a multiple of 4 from [`LEAST_SIZE`] to [`GREATEST_SIZE`], and `h` a multiple of
    /// 4, at least 4, and [`HEAP_BASE`]` + h + 4` at most `n`.
    pub fn fresh(n: u32, h: u32) -> Result<Picture, Key> {
        let length = (n as usize).min(GREATEST_SIZE);
        let mut longwords = vec![0; length];
        Key::check(lent::fresh(&mut longwords, n, h))?;
        Ok(Picture { longwords })
    }

    /// The picture that the longwords are, whatever they hold.
    pub fn from_longwords(longwords: Vec<u32>) -> Picture {
        Picture { longwords }
    }

    /// The longwords, to be read.
    pub fn longwords(&self) -> &[u32] {
        &self.longwords
    }

    /// The longwords, to be written by whoever answers for it.
    pub fn longwords_mut(&mut self) -> &mut [u32] {
        &mut self.longwords
    }

    /// The longwords alone.
    pub fn into_longwords(self) -> Vec<u32> {
        self.longwords
    }

    /// The current job, or none: what the picture says, which isn't tested for soundness.
    pub fn current(&self) -> Option<JobNumber> {
        self.longwords.get(CURRENT_WORD).copied().and_then(JobNumber::named)
    }

    /// A call with raw registers. Refused, it writes the key to D0 and changes nothing else.
    pub fn trap(&mut self, trap: u32, registers: &mut Registers, name: &[u8]) -> Result<(), Key> {
        Key::check(lent::call(&mut self.longwords, trap, registers, name))
    }

    /// Gives a job its turn and makes it current. A job that stays ready, at a priority p that nobody changes, gets at
    /// least one of any 2 + 3810 / p turns in a row, rounded down.
    ///
    /// [`Key::NOT_SOUND`] is the only refusal.
    pub fn pick(&mut self) -> Result<Picked, Key> {
        let (number, key) = lent::pick(&mut self.longwords);
        match JobNumber::named(number) {
            None => Key::check(key).map(|()| Picked { job: None, key }),
            job => Ok(Picked { job, key }),
        }
    }

    /// A frame passes: each timeout that isn't without end falls by 1, and at 0 the job isn't suspended any more.
    ///
    /// [`Key::NOT_SOUND`] is the only refusal.
    pub fn tick(&mut self) -> Result<(), Key> {
        Key::check(lent::tick(&mut self.longwords))
    }

    /// Tells of each job in the tree of the top, by rising tag: so of the top first, and of every other behind its owner.
    /// Nobody needs to be current.
    ///
    /// [`Key::INVALID_JOB`] where the top isn't live; [`Key::NOT_SOUND`].
    pub fn report_tree(&self, top: JobNumber) -> Result<Vec<JobLine>, Key> {
        // No tree has more jobs than there are positions, so the table is long enough.
        let mut table = [0; JOBS * LINE_LONGWORDS];
        let (key, count) = lent::report_tree(&self.longwords, top.0, &mut table);
        Key::check(key)?;
        Ok(table.chunks_exact(LINE_LONGWORDS).take(count).map(JobLine::read).collect())
    }

    /// MT.INF: the current job and the version.
    pub fn mt_inf(&mut self) -> Result<Information, Key> {
        let after = Call::new(MT_INF).on(self, TRAP_1, b"")?;
        Ok(Information { current: JobNumber(after[D1]), version: after[D2].to_be_bytes() })
    }

    /// MT.CJOB: makes a job, inactive, with so many bytes of code and of data. Any live job may be its owner, whichever is
    /// current; without an owner it is independent. The start address is kept and not looked at.
    ///
    /// [`Key::INVALID_JOB`] where the owner isn't live, or positions or tags are used up; [`Key::BAD_PARAMETER`] for fewer
    /// than 4 bytes of data; [`Key::OUT_OF_MEMORY`].
    pub fn mt_cjob(&mut self, owner: Option<JobNumber>, code: u32, data: u32, start: u32) -> Result<Created, Key> {
        // A negative number would mean no owner. None such is a job's, and the greatest of the others isn't either.
        let owner = owner.map_or(NOBODY, |job| job.0.min(i32::MAX as u32));
        let call = Call::new(MT_CJOB).with(D1, owner).with(D2, code).with(D3, data).with(A1, start);
        let after = call.on(self, TRAP_1, b"")?;
        Ok(Created { job: JobNumber(after[D1]), first_byte: after[A0] })
    }

    /// MT.JINF: tells of a job in the tree of the top. To meet the whole tree, begin with the top itself, and go on with
    /// each `next`.
    ///
    /// [`Key::INVALID_JOB`] where one of them isn't live or the job isn't in the tree.
    pub fn mt_jinf(&mut self, job: JobNumber, top: JobNumber) -> Result<JobInformation, Key> {
        let after = Call::new(MT_JINF).with(D1, job.0).with(D2, top.0).on(self, TRAP_1, b"")?;
        Ok(JobInformation {
            next: (after[D1] != JobNumber::ZERO.0).then_some(JobNumber(after[D1])),
            owner: JobNumber::named(after[D2]),
            priority: after[D3] as u8,
            suspended: after[D3] >> 24 != 0,
            first_byte: after[A0],
        })
    }

    /// MT.RJOB: removes a job's tree with all memory and channels that it owns; who waits for one of it gets the key at
    /// its next turn. Done, it leaves nobody current.
    ///
    /// [`Key::NOT_COMPLETE`] where one of the tree is active; [`Key::BAD_PARAMETER`] for job 0; [`Key::INVALID_JOB`].
    pub fn mt_rjob(&mut self, job: JobNumber, key: i32) -> Result<(), Key> {
        Call::new(MT_RJOB).with(D1, job.0).with(D3, key as u32).on(self, TRAP_1, b"").map(drop)
    }

    /// MT.FRJOB: the same, active or not; a job removes itself by this. Done, it leaves nobody current.
    ///
    /// [`Key::BAD_PARAMETER`] for job 0; [`Key::INVALID_JOB`].
    pub fn mt_frjob(&mut self, job: JobNumber, key: i32) -> Result<(), Key> {
        Call::new(MT_FRJOB).with(D1, job.0).with(D3, key as u32).on(self, TRAP_1, b"").map(drop)
    }

    /// MT.FREE: how many bytes the longest room for a job has.
    pub fn mt_free(&mut self) -> Result<u32, Key> {
        Ok(Call::new(MT_FREE).on(self, TRAP_1, b"")?[D1])
    }

    /// MT.SUSJB: suspends a job for 1 to 32,767 frames, or [`WITHOUT_END`]. Its wait is over, and a key that it hasn't got
    /// yet is lost. Done, it leaves nobody current.
    ///
    /// [`Key::INVALID_JOB`]; [`Key::BAD_PARAMETER`] for other frames.
    pub fn mt_susjb(&mut self, job: JobNumber, frames: i16) -> Result<Record, Key> {
        Call::new(MT_SUSJB).with(D1, job.0).with(D3, word(frames)).on(self, TRAP_1, b"").map(record)
    }

    /// MT.RELJB: releases a suspended job, which goes on without a key. Done, it leaves nobody current.
    ///
    /// [`Key::INVALID_JOB`].
    pub fn mt_reljb(&mut self, job: JobNumber) -> Result<Record, Key> {
        Call::new(MT_RELJB).with(D1, job.0).on(self, TRAP_1, b"").map(record)
    }

    /// MT.ACTIV: activates a job at a priority from 1 to 127; where `wait` is said, the current job waits until that one,
    /// which isn't job 0, is removed. Done, it leaves nobody current.
    ///
    /// [`Key::INVALID_JOB`]; [`Key::NOT_COMPLETE`] where the job is active; [`Key::BAD_PARAMETER`].
    pub fn mt_activ(&mut self, job: JobNumber, priority: u8, wait: bool) -> Result<Record, Key> {
        let timeout = if wait { WITHOUT_END } else { 0 };
        let call = Call::new(MT_ACTIV).with(D1, job.0).with(D2, u32::from(priority)).with(D3, word(timeout));
        call.on(self, TRAP_1, b"").map(record)
    }

    /// MT.PRIOR: sets a job's priority, to at most 127; 0 makes it inactive. Done, it leaves nobody current.
    ///
    /// [`Key::INVALID_JOB`]; [`Key::BAD_PARAMETER`].
    pub fn mt_prior(&mut self, job: JobNumber, priority: u8) -> Result<Record, Key> {
        Call::new(MT_PRIOR).with(D1, job.0).with(D2, u32::from(priority)).on(self, TRAP_1, b"").map(record)
    }

    /// MT.ALCHP: takes room for so many bytes on the heap, for a job with which it goes.
    ///
    /// [`Key::BAD_PARAMETER`] for 0 bytes, or 2^31 and more; [`Key::INVALID_JOB`]; [`Key::OUT_OF_MEMORY`].
    pub fn mt_alchp(&mut self, bytes: u32, owner: JobNumber) -> Result<Room, Key> {
        let after = Call::new(MT_ALCHP).with(D1, bytes).with(D2, owner.0).on(self, TRAP_1, b"")?;
        Ok(Room { first_byte: after[A0], length: after[D1] })
    }

    /// MT.RECHP: gives room on the heap back, named by its first byte.
    ///
    /// [`Key::BAD_PARAMETER`] where no such room starts there.
    pub fn mt_rechp(&mut self, first_byte: u32) -> Result<(), Key> {
        Call::new(MT_RECHP).with(A0, first_byte).on(self, TRAP_1, b"").map(drop)
    }

    /// IO.OPEN: opens a queue for a job with which it goes. Its name is `PIPE_n`, capitals or not, and n, 1 to 32,766, is
    /// how many bytes it holds.
    ///
    /// [`Key::INVALID_JOB`]; for the name [`Key::NOT_FOUND`], [`Key::BAD_NAME`], and [`Key::BAD_PARAMETER`] for PIPE alone;
    /// [`Key::CHANNEL_NOT_OPEN`] where positions or tags are used up; [`Key::OUT_OF_MEMORY`].
    pub fn io_open(&mut self, owner: JobNumber, name: &[u8]) -> Result<ChannelNumber, Key> {
        let after = Call::new(IO_OPEN).with(D1, owner.0).on(self, TRAP_2, name)?;
        Ok(ChannelNumber(after[A0]))
    }

    /// IO.CLOSE: closes a channel.
    ///
    /// [`Key::CHANNEL_NOT_OPEN`].
    pub fn io_close(&mut self, channel: ChannelNumber) -> Result<(), Key> {
        Call::new(IO_CLOSE).with(A0, channel.0).on(self, TRAP_2, b"").map(drop)
    }

    /// IO.PEND: whether a byte waits in the channel's queue.
    ///
    /// [`Key::CHANNEL_NOT_OPEN`].
    pub fn io_pend(&mut self, channel: ChannelNumber) -> Result<bool, Key> {
        match Call::new(IO_PEND).with(A0, channel.0).on(self, TRAP_3, b"") {
            Ok(_) => Ok(true),
            Err(Key::NOT_COMPLETE) => Ok(false),
            Err(key) => Err(key),
        }
    }

    /// IO.FBYTE: fetches the oldest byte.
    ///
    /// [`Key::CHANNEL_NOT_OPEN`]; [`Key::NOT_COMPLETE`] where the queue is empty.
    pub fn io_fbyte(&mut self, channel: ChannelNumber) -> Result<u8, Key> {
        let after = Call::new(IO_FBYTE).with(A0, channel.0).on(self, TRAP_3, b"")?;
        Ok(after[D1] as u8)
    }

    /// IO.SBYTE: sends a byte.
    ///
    /// [`Key::CHANNEL_NOT_OPEN`]; [`Key::NOT_COMPLETE`] where the queue is full.
    pub fn io_sbyte(&mut self, channel: ChannelNumber, byte: u8) -> Result<(), Key> {
        Call::new(IO_SBYTE).with(A0, channel.0).with(D1, u32::from(byte)).on(self, TRAP_3, b"").map(drop)
    }
}
