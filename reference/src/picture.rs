//! The picture: where everything stands in it, and how its numbers are looked up.

/// The least N.
pub const LEAST_LENGTH: usize = 1_024;
/// The greatest N.
pub const GREATEST_LENGTH: usize = 16_384;
/// N, H and the transient area are multiples of this many longwords; H and the transient area are at least as long.
pub const STEP: usize = 4;

/// Longword 0 holds N.
pub const LENGTH: usize = 0;
/// Longword 1 holds the current job's number, or nobody.
pub const CURRENT: usize = 1;
/// Longword 2 holds the last job tag given.
pub const LAST_JOB_TAG: usize = 2;
/// Longword 3 holds the last channel tag given.
pub const LAST_CHANNEL_TAG: usize = 3;
/// Longword 4 holds H, the heap's length in longwords.
pub const HEAP_LENGTH: usize = 4;
/// Longword 5 holds the job mask: bit k says that position k is in use.
pub const JOB_MASK: usize = 5;
/// Longword 6 holds the channel mask.
pub const CHANNEL_MASK: usize = 6;
/// Longword 7 holds 0.
pub const SPARE: usize = 7;

/// Positions of each table.
pub const POSITIONS: usize = 32;
/// Where the job records start, and the longwords of each.
pub const JOB_RECORDS: usize = 8;
pub const JOB_RECORD: usize = 8;
/// Where the channel records start, and the longwords of each.
pub const CHANNEL_RECORDS: usize = JOB_RECORDS + POSITIONS * JOB_RECORD;
pub const CHANNEL_RECORD: usize = 4;
/// Where the heap starts; the transient area follows it.
pub const HEAP: usize = CHANNEL_RECORDS + POSITIONS * CHANNEL_RECORD;

/// Nobody as a current job, no owner as an owner.
pub const NOBODY: u32 = 0xFFFF_FFFF;
/// The last tag of either series.
pub const LAST_TAG: u32 = 32_767;
/// The greatest priority.
pub const GREATEST_PRIORITY: u32 = 127;
/// Where accumulated is held.
pub const HOLD: u32 = 8_191;
/// The longest timeout in frames.
pub const LONGEST_TIMEOUT: i32 = 32_767;
/// The timeout without end.
pub const WITHOUT_END: i32 = -1;

/// The fields of a job record.
pub mod job {
    pub const NUMBER: usize = 0;
    pub const OWNER: usize = 1;
    pub const BASE: usize = 2;
    pub const PRIORITY: usize = 3;
    pub const ACCUMULATED: usize = 4;
    pub const TIMEOUT: usize = 5;
    pub const WAIT: usize = 6;
    pub const KEY: usize = 7;
}

/// The fields of a channel record.
pub mod channel {
    pub const NUMBER: usize = 0;
    pub const OWNER: usize = 1;
    pub const BASE: usize = 2;
    pub const ONE: usize = 3;
}

/// The fields of a block's header, and its kinds.
pub mod block {
    /// Longwords and bytes of a header; a block's whole length is a multiple of the latter.
    pub const HEADER: usize = 4;
    pub const HEADER_BYTES: u32 = 16;

    pub const LENGTH: usize = 0;
    pub const KIND: usize = 1;
    pub const OWNER: usize = 2;
    pub const START: usize = 3;

    pub const FREE: u32 = 0;
    pub const PLAIN: u32 = 1;
    pub const QUEUE: u32 = 2;
    pub const JOB: u32 = 3;
}

/// The fields of a queue's room.
pub mod queue {
    /// The greatest n.
    pub const LONGEST: u32 = 32_766;
    /// Bytes of the header and of the four longwords before a queue's bytes.
    pub const BEFORE_BYTES: u32 = 32;

    pub const LENGTH: usize = 0;
    pub const INDEX: usize = 1;
    pub const COUNT: usize = 2;
    pub const ZERO: usize = 3;
    pub const BYTES: usize = 4;
}

/// A number of the job table: tag × 65,536 + position.
#[derive(Clone, Copy, PartialEq, Eq, Debug)]
pub struct JobNumber(pub u32);

/// A number of the channel table: tag × 65,536 + position.
#[derive(Clone, Copy, PartialEq, Eq, Debug)]
pub struct ChannelNumber(pub u32);

/// The number with this tag and position.
pub fn number(tag: u32, position: usize) -> u32 {
    tag << 16 | position as u32
}

/// The tag of a number.
pub fn tag(number: u32) -> u32 {
    number >> 16
}

/// The position of a number.
pub fn position(number: u32) -> usize {
    (number & 0xFFFF) as usize
}

/// The index of the job record at this position.
pub fn job_record(position: usize) -> usize {
    JOB_RECORDS + position * JOB_RECORD
}

/// The index of the channel record at this position.
pub fn channel_record(position: usize) -> usize {
    CHANNEL_RECORDS + position * CHANNEL_RECORD
}

/// Whether the mask says that the position is in use.
pub fn in_use(mask: u32, position: usize) -> bool {
    position < POSITIONS && mask >> position & 1 == 1
}

/// The position of the live job that the number names.
pub fn live_job(picture: &[u32], JobNumber(number): JobNumber) -> Option<usize> {
    let position = position(number);
    (in_use(picture[JOB_MASK], position) && picture[job_record(position) + job::NUMBER] == number).then_some(position)
}

/// The position of the live channel that the number names.
pub fn live_channel(picture: &[u32], ChannelNumber(number): ChannelNumber) -> Option<usize> {
    let position = position(number);
    (in_use(picture[CHANNEL_MASK], position) && picture[channel_record(position) + channel::NUMBER] == number)
        .then_some(position)
}

/// The lowest clear bit of a mask, or none where every position is in use.
pub fn free_position(mask: u32) -> Option<usize> {
    let position = (!mask).trailing_zeros() as usize;
    (position < POSITIONS).then_some(position)
}

/// The positions that a mask names, rising.
pub fn positions(mut mask: u32) -> impl Iterator<Item = usize> {
    std::iter::from_fn(move || {
        let position = mask.trailing_zeros() as usize;
        mask &= mask.wrapping_sub(1);
        (position < POSITIONS).then_some(position)
    })
}

/// A job is active if its priority is at least 1.
pub fn active(priority: u32) -> bool {
    priority >= 1
}

/// A job is ready if it is active and not suspended.
pub fn ready(priority: u32, timeout: u32) -> bool {
    active(priority) && timeout == 0
}

#[cfg(test)]
mod tests {
    use super::*;

    #[test]
    fn the_layout_is_the_papers() {
        assert_eq!((CHANNEL_RECORDS, HEAP), (264, 392));
        assert_eq!(number(0x7FFF, 31), 0x7FFF_001F);
        assert_eq!((tag(0x8001_0002), position(0x8001_0002)), (0x8001, 2));
    }

    #[test]
    fn the_lowest_clear_bit_is_the_free_position() {
        assert_eq!(free_position(0), Some(0));
        assert_eq!(free_position(0b1011), Some(2));
        assert_eq!(free_position(0x7FFF_FFFF), Some(31));
        assert_eq!(free_position(0xFFFF_FFFF), None);
        for k in 0..POSITIONS {
            assert_eq!(free_position(!(1 << k)), Some(k), "the one that is free");
            assert_eq!(free_position((1 << k) - 1), Some(k), "the first behind those in use");
        }
        assert_eq!(positions(0x8000_0005).collect::<Vec<_>>(), [0, 2, 31]);
        assert_eq!(positions(0).count(), 0);
    }

    #[test]
    fn a_number_is_looked_up_by_its_whole_value_in_its_own_table() {
        let mut picture = crate::fresh::fresh_picture(1_024, 256);
        assert_eq!(live_job(&picture, JobNumber(0)), Some(0));
        assert_eq!(live_channel(&picture, ChannelNumber(0)), None);
        for dead in [1, 32, 0x1_0000, 0xFFFF, NOBODY] {
            assert_eq!(live_job(&picture, JobNumber(dead)), None);
        }
        picture[CHANNEL_MASK] = 1 << 31;
        picture[channel_record(31)] = number(5, 31);
        assert_eq!(live_channel(&picture, ChannelNumber(number(5, 31))), Some(31));
        assert_eq!(live_channel(&picture, ChannelNumber(number(4, 31))), None);
        assert_eq!(live_job(&picture, JobNumber(number(5, 31))), None);
    }
}
