//! The numbers of calls, registers, keys and fields, as `krowjyvan.h` has and explains them too.
#![allow(missing_docs)]

// The traps, and the calls of each by D0.
pub const TRAP_1: u32 = 1;
pub const MT_INF: u32 = 0x00;
pub const MT_CJOB: u32 = 0x01;
pub const MT_JINF: u32 = 0x02;
pub const MT_RJOB: u32 = 0x04;
pub const MT_FRJOB: u32 = 0x05;
pub const MT_FREE: u32 = 0x06;
pub const MT_SUSJB: u32 = 0x08;
pub const MT_RELJB: u32 = 0x09;
pub const MT_ACTIV: u32 = 0x0A;
pub const MT_PRIOR: u32 = 0x0B;
pub const MT_ALCHP: u32 = 0x18;
pub const MT_RECHP: u32 = 0x19;

pub const TRAP_2: u32 = 2;
pub const IO_OPEN: u32 = 0x01;
pub const IO_CLOSE: u32 = 0x02;

pub const TRAP_3: u32 = 3;
pub const IO_PEND: u32 = 0x00;
pub const IO_FBYTE: u32 = 0x01;
pub const IO_SBYTE: u32 = 0x05;

// The registers, by their index.
pub const D0: usize = 0;
pub const D1: usize = 1;
pub const D2: usize = 2;
pub const D3: usize = 3;
pub const A0: usize = 4;
pub const A1: usize = 5;
pub const A2: usize = 6;
pub const A3: usize = 7;
pub const REGISTERS: usize = 8;

// The keys; the refusals are also constants of `Key`.
pub const DONE: i32 = 0;
pub const NOT_COMPLETE: i32 = -1;
pub const INVALID_JOB: i32 = -2;
pub const OUT_OF_MEMORY: i32 = -3;
pub const OUT_OF_RANGE: i32 = -4;
pub const BUFFER_OVERFLOW: i32 = -5;
pub const CHANNEL_NOT_OPEN: i32 = -6;
pub const NOT_FOUND: i32 = -7;
pub const BAD_NAME: i32 = -12;
pub const BAD_PARAMETER: i32 = -15;
pub const NOT_SOUND: i32 = -16;

/// The number for nobody, where a job's number is read: no current job, no owner.
pub const NOBODY: u32 = 0xFFFF_FFFF;
/// Means the current job, where a call allows it.
pub const CURRENT_JOB: u32 = 0xFFFF_FFFF;
/// In a number a tag is worth so much, and the position is below it.
pub const TAG_WEIGHT: u32 = 65_536;
/// Tags run to this one.
pub const GREATEST_TAG: u32 = 32_767;

/// The least length of a picture, in longwords.
pub const LEAST_SIZE: usize = 1_024;
/// The greatest length of a picture, in longwords.
pub const GREATEST_SIZE: usize = 16_384;

// Where things stand in a picture.
pub const SIZE_WORD: usize = 0;
pub const CURRENT_WORD: usize = 1;
pub const LAST_JOB_TAG_WORD: usize = 2;
pub const LAST_CHANNEL_TAG_WORD: usize = 3;
pub const HEAP_WORD: usize = 4;
pub const JOB_MASK_WORD: usize = 5;
pub const CHANNEL_MASK_WORD: usize = 6;
pub const ZERO_WORD: usize = 7;
pub const FIRST_JOB: usize = 8;
pub const JOBS: usize = 32;
pub const JOB_WIDTH: usize = 8;
pub const FIRST_CHANNEL: usize = 264;
pub const CHANNELS: usize = 32;
pub const CHANNEL_WIDTH: usize = 4;
pub const HEAP_BASE: usize = 392;

// The fields of a record, and their greatest values.
pub const NUMBER: usize = 0;
pub const OWNER: usize = 1;
pub const BASE: usize = 2;
pub const PRIORITY: usize = 3;
pub const ACCUMULATED: usize = 4;
pub const TIMEOUT: usize = 5;
pub const WAIT: usize = 6;
pub const KEY: usize = 7;
pub const ENDING: usize = 3;
pub const GREATEST_PRIORITY: u8 = 127;
pub const HOLD: u32 = 8_191;
pub const GREATEST_TIMEOUT: i16 = 32_767;
/// The timeout without end.
pub const WITHOUT_END: i16 = -1;

// The longwords of a job's line in a report, by their index.
pub const LINE_NUMBER: usize = 0;
pub const LINE_OWNER: usize = 1;
pub const LINE_DEPTH: usize = 2;
pub const LINE_PRIORITY: usize = 3;
pub const LINE_SUSPENDED: usize = 4;
pub const LINE_LONGWORDS: usize = 5;
