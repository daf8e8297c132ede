//! The keys, signed 32-bit numbers with the values of the guide's section 18.1.

pub type Key = i32;

pub const DONE: Key = 0;
pub const NOT_COMPLETE: Key = -1;
pub const INVALID_JOB: Key = -2;
pub const OUT_OF_MEMORY: Key = -3;
pub const OUT_OF_RANGE: Key = -4;
pub const BUFFER_OVERFLOW: Key = -5;
pub const CHANNEL_NOT_OPEN: Key = -6;
pub const NOT_FOUND: Key = -7;
pub const BAD_NAME: Key = -12;
pub const BAD_PARAMETER: Key = -15;
pub const NOT_SOUND: Key = -16;

/// What a call answers: done, or a refusal's key.
pub type Answer = Result<(), Key>;
