//! Channels and queues: trap 2 $1 and $2, trap 3 $0, $1 and $5.

use crate::blocks;
use crate::jobs;
use crate::keys::*;
use crate::picture::*;
use crate::registers::*;

/// The most digits of a queue's length in a name.
const MOST_DIGITS: usize = 5;

/// The queue length that a name of the form PIPE_n holds.
pub fn queue_length(name: &[u8]) -> Result<u32, Key> {
    let Some((pipe, behind)) = name.split_at_checked(4) else { return Err(NOT_FOUND) };
    if !pipe.eq_ignore_ascii_case(b"PIPE") {
        return Err(NOT_FOUND);
    }
    let digits = match behind {
        [] => return Err(BAD_PARAMETER),
        [b'_', digits @ ..] => digits,
        _ => return Err(NOT_FOUND),
    };
    if digits.is_empty() || digits.len() > MOST_DIGITS || !digits.iter().all(u8::is_ascii_digit) {
        return Err(BAD_NAME);
    }
    let n = digits.iter().fold(0, |n, digit| 10 * n + u32::from(digit - b'0'));
    if !(1..=queue::LONGEST).contains(&n) {
        return Err(BAD_NAME);
    }
    Ok(n)
}

/// Trap 2 $1: opens a channel with its queue.
pub fn open(registers: &mut Registers, name: &[u8], picture: &mut [u32]) -> Answer {
    let Some(owner) = jobs::named(picture, registers[D1]) else { return Err(INVALID_JOB) };
    let n = queue_length(name)?;
    let Some(position) = free_position(picture[CHANNEL_MASK]) else { return Err(CHANNEL_NOT_OPEN) };
    let tag = picture[LAST_CHANNEL_TAG] + 1;
    if tag > LAST_TAG {
        return Err(CHANNEL_NOT_OPEN);
    }
    let owner = picture[job_record(owner) + job::NUMBER];
    let whole = u64::from(queue::BEFORE_BYTES + n);
    let at = blocks::place(picture, blocks::heap(picture), whole, block::QUEUE, owner, 0)?;

    let number = number(tag, position);
    picture[at + block::HEADER + queue::LENGTH] = n;
    picture[LAST_CHANNEL_TAG] = tag;
    picture[CHANNEL_MASK] |= 1 << position;
    let record = channel_record(position);
    picture[record..record + CHANNEL_RECORD].copy_from_slice(&[number, owner, blocks::address(at), 1]);
    registers[D1] = owner;
    registers[A0] = number;
    Ok(())
}

/// Trap 2 $2: closes a channel and frees its block.
pub fn close(registers: &mut Registers, picture: &mut [u32]) -> Answer {
    let Some(position) = live_channel(picture, ChannelNumber(registers[A0])) else { return Err(CHANNEL_NOT_OPEN) };
    let record = channel_record(position);
    let at = (picture[record + channel::BASE] / 4) as usize;
    picture[record..record + CHANNEL_RECORD].fill(0);
    picture[CHANNEL_MASK] &= !(1 << position);
    let area = blocks::heap(picture);
    if let Some(met) = blocks::meet(picture, area.clone(), at) {
        blocks::give_back(picture, area, met);
    }
    Ok(())
}

/// The index of the queue's room that trap 3 asks for: channel A0, with D3's low word 0.
fn queue_of(registers: &Registers, picture: &[u32]) -> Result<usize, Key> {
    let Some(position) = live_channel(picture, ChannelNumber(registers[A0])) else { return Err(CHANNEL_NOT_OPEN) };
    if low_word(registers[D3]) != 0 {
        return Err(BAD_PARAMETER);
    }
    let base = picture[channel_record(position) + channel::BASE];
    Ok((base / 4) as usize + block::HEADER)
}

/// The longword that holds the queue's byte with this index, and how far left the byte stands in it.
fn byte_place(room: usize, index: u32) -> (usize, u32) {
    (room + queue::BYTES + (index / 4) as usize, 24 - 8 * (index % 4))
}

/// Trap 3 $0: asks whether a byte waits.
pub fn pending(registers: &mut Registers, picture: &[u32]) -> Answer {
    let room = queue_of(registers, picture)?;
    if picture[room + queue::COUNT] == 0 {
        return Err(NOT_COMPLETE);
    }
    Ok(())
}

/// Trap 3 $1: takes the oldest byte into D1; the byte stays, the index steps up, round at n.
pub fn fetch(registers: &mut Registers, picture: &mut [u32]) -> Answer {
    let room = queue_of(registers, picture)?;
    if picture[room + queue::COUNT] == 0 {
        return Err(NOT_COMPLETE);
    }
    let (n, index) = (picture[room + queue::LENGTH], picture[room + queue::INDEX]);
    let (longword, left) = byte_place(room, index);
    registers[D1] = picture[longword] >> left & 0xFF;
    picture[room + queue::INDEX] = if index + 1 == n { 0 } else { index + 1 };
    picture[room + queue::COUNT] -= 1;
    Ok(())
}

/// Trap 3 $5: writes D1's low byte behind the newest.
pub fn send(registers: &mut Registers, picture: &mut [u32]) -> Answer {
    let room = queue_of(registers, picture)?;
    let (n, count) = (picture[room + queue::LENGTH], picture[room + queue::COUNT]);
    if count == n {
        return Err(NOT_COMPLETE);
    }
    let behind = picture[room + queue::INDEX] + count;
    let (longword, left) = byte_place(room, if behind < n { behind } else { behind - n });
    picture[longword] = picture[longword] & !(0xFF << left) | u32::from(low_byte(registers[D1])) << left;
    picture[room + queue::COUNT] = count + 1;
    Ok(())
}

#[cfg(test)]
mod tests {
    use super::*;
    use crate::desk::{Desk, REST};

    #[test]
    fn names_are_pipe_and_one_to_five_digits() {
        for (name, n) in
            [(&b"PIPE_1"[..], 1), (b"pipe_32766", 32_766), (b"PiPe_00001", 1), (b"pIPE_007", 7), (b"PIPE_10", 10)]
        {
            assert_eq!(queue_length(name), Ok(n));
        }
        let bad: &[&[u8]] = &[
            b"PIPE_",
            b"PIPE_0",
            b"PIPE_00000",
            b"PIPE_000001",
            b"PIPE_32767",
            b"PIPE_99999",
            b"PIPE_65537",
            b"PIPE_123456",
            b"PIPE_1a",
            b"PIPE_a",
            b"PIPE_-1",
            b"PIPE_+1",
            b"PIPE_ 1",
            b"PIPE_1 ",
            b"PIPE__1",
            b"PIPE_1\0",
            b"PIPE_\xB1",
        ];
        for name in bad {
            assert_eq!(queue_length(name), Err(BAD_NAME), "{name:?}");
        }
        for name in [&b"PIPE"[..], b"pipe", b"pIpE"] {
            assert_eq!(queue_length(name), Err(BAD_PARAMETER));
        }
        let unknown: &[&[u8]] = &[
            b"",
            b"P",
            b"PIP",
            b"SER1",
            b"PIPX_1",
            b"XIPE_1",
            b"PIPE1",
            b"PIPE 1",
            b"PIPES_1",
            b"PIPE\x7F1",
            b" PIPE_1",
            b"\xD0IPE_1",
            b"0IPE_1",
            b"PIPE-1",
            b"PIP_1",
        ];
        for name in unknown {
            assert_eq!(queue_length(name), Err(NOT_FOUND), "{name:?}");
        }
    }

    #[test]
    fn opening_writes_record_header_and_queue() {
        let mut desk = Desk::fresh();
        let child = desk.job(true, 0);
        desk.picture[HEAP + 4..HEAP + 20].fill(0xDEAD_BEEF);
        let before = desk.picture.clone();
        let (key, after) = desk.open(child, b"pipe_17");
        assert_eq!((key, after), (0, [0, child, REST, REST, 0x0001_0000, REST, REST, REST]));
        let mut changes = vec![(LAST_CHANNEL_TAG, 1), (CHANNEL_MASK, 1)];
        changes.extend([(264, 0x0001_0000), (265, child), (266, 4 * HEAP as u32), (267, 1)]);
        changes.extend([(392, 64), (393, block::QUEUE), (394, child), (396, 17)]);
        changes.extend((397..408).map(|k| (k, 0)));
        changes.extend([(408, 1_024 - 64), (409, 0), (410, 0), (411, 0)]);
        desk.changed_only(&before, &changes);
    }

    #[test]
    fn opening_checks_job_then_name_then_position_then_tag_then_room() {
        let mut desk = Desk::sized(1_024, 512);
        assert_eq!(desk.open(9, b"").0, INVALID_JOB);
        assert_eq!(desk.open(9, b"PIPE").0, INVALID_JOB);
        assert_eq!(desk.open(0, b"PIPE_32766").0, OUT_OF_MEMORY);
        assert_eq!(desk.picture[LAST_CHANNEL_TAG], 0);
        for k in 0..POSITIONS {
            assert_eq!(desk.open(0xFFFF, b"PIPE_1").1[A0], number(k as u32 + 1, k));
        }
        for (name, key) in
            [(&b"PIPE_9"[..], CHANNEL_NOT_OPEN), (b"PIPE_32766", CHANNEL_NOT_OPEN), (b"PIPE_0", BAD_NAME)]
        {
            assert_eq!(desk.open(0, name).0, key);
        }
        desk.close(number(6, 5));
        desk.picture[LAST_CHANNEL_TAG] = LAST_TAG;
        assert_eq!(desk.open(0, b"PIPE_32766").0, CHANNEL_NOT_OPEN);
        desk.picture[LAST_CHANNEL_TAG] = LAST_TAG - 1;
        assert_eq!(desk.open(0, b"PIPE_32766").0, OUT_OF_MEMORY);
        assert_eq!(desk.open(0, b"PIPE_2").1[A0], 0x7FFF_0005);
    }

    #[test]
    fn the_longest_queue_fits_exactly() {
        let mut desk = Desk::sized(16_384, 8_200);
        assert_eq!(desk.open(0, b"PIPE_32766").0, 0);
        let mut desk = Desk::sized(16_384, 8_196);
        assert_eq!(desk.open(0, b"PIPE_32766").0, OUT_OF_MEMORY);
        assert_eq!(desk.open(0, b"PIPE_32753").0, OUT_OF_MEMORY);
        assert_eq!(desk.open(0, b"PIPE_32752").0, 0);
    }

    #[test]
    fn closing_frees_the_block_and_the_number_stays_dead() {
        let mut desk = Desk::fresh();
        let first = desk.open(0, b"PIPE_3").1[A0];
        let second = desk.open(0, b"PIPE_3").1[A0];
        desk.queue(0x5, first, 0x41, 0);
        let before = desk.picture.clone();
        let (key, after) = desk.close(first);
        assert_eq!((key, after), (0, [0, REST, REST, REST, first, REST, REST, REST]));
        desk.changed_only(&before, &[(CHANNEL_MASK, 2), (264, 0), (266, 0), (267, 0), (393, 0)]);
        let again = desk.open(0, b"PIPE_3").1[A0];
        assert_eq!((position(again), tag(again)), (position(first), 3));
        assert_eq!(desk.close(first).0, CHANNEL_NOT_OPEN);
        for call in [0x0, 0x1, 0x5] {
            for dead in [first, 0, 31, 32, NOBODY, 0xFFFF, second | 0x8000, second + 0x1_0000] {
                assert_eq!(desk.queue(call, dead, 1, 5).0, CHANNEL_NOT_OPEN);
            }
        }
        assert_eq!(desk.close(second).0, 0);
        assert_eq!(desk.close(again).0, 0);
        assert_eq!(desk.header(HEAP), [1_024, 0, 0, 0]);
    }

    #[test]
    fn bytes_leave_in_the_order_in_which_they_came() {
        for length in [1u32, 2, 3, 4, 5, 16, 17] {
            let mut desk = Desk::fresh();
            let other = desk.open(0, b"PIPE_8").1[A0];
            desk.queue(0x5, other, 0xEE, 0);
            let channel = desk.open(0, format!("PIPE_{length}").as_bytes()).1[A0];
            let mut model = std::collections::VecDeque::new();
            let mut random = crate::random::Random::new(u64::from(length));
            for _ in 0..400 {
                let byte = random.longword();
                if random.once_in(2) {
                    let (key, after) = desk.queue(0x5, channel, byte, 0x7777_0000);
                    assert_eq!(key == 0, model.len() < length as usize);
                    if key == 0 {
                        assert_eq!(after, [0, byte, REST, 0x7777_0000, channel, REST, REST, REST]);
                        model.push_back(byte & 0xFF);
                    } else {
                        assert_eq!(key, NOT_COMPLETE);
                    }
                } else {
                    let (pending, after) = desk.queue(0x0, channel, byte, 0);
                    assert_eq!((pending, after[D1]), (if model.is_empty() { NOT_COMPLETE } else { 0 }, byte));
                    let (key, after) = desk.queue(0x1, channel, byte, 0);
                    assert_eq!(key, pending);
                    if let Some(oldest) = model.pop_front() {
                        assert_eq!(after, [0, oldest, REST, 0, channel, REST, REST, REST]);
                    }
                }
            }
            assert_eq!(desk.queue(0x1, other, 0, 0).1[D1], 0xEE);
        }
    }

    #[test]
    fn the_byte_stays_and_the_index_steps_round() {
        let mut desk = Desk::fresh();
        let channel = desk.open(0, b"PIPE_5").1[A0];
        for byte in [0x11, 0x22, 0x33, 0x44, 0x55] {
            assert_eq!(desk.queue(0x5, channel, byte, 0).0, 0);
        }
        assert_eq!(desk.picture[396..402], [5, 0, 5, 0, 0x1122_3344, 0x5500_0000]);
        assert_eq!(desk.queue(0x5, channel, 0x66, 0).0, NOT_COMPLETE);
        for (k, byte) in [0x11, 0x22, 0x33, 0x44].into_iter().enumerate() {
            assert_eq!(desk.queue(0x1, channel, NOBODY, 0).1[D1], byte);
            assert_eq!(desk.picture[396..402], [5, k as u32 + 1, 4 - k as u32, 0, 0x1122_3344, 0x5500_0000]);
        }
        desk.queue(0x5, channel, 0xFFFF_FF99, 0);
        assert_eq!(desk.picture[396..402], [5, 4, 2, 0, 0x9922_3344, 0x5500_0000]);
        desk.queue(0x1, channel, 0, 0);
        assert_eq!(desk.picture[396..402], [5, 0, 1, 0, 0x9922_3344, 0x5500_0000]);
        desk.queue(0x1, channel, 0, 0);
        assert_eq!(desk.picture[396..402], [5, 1, 0, 0, 0x9922_3344, 0x5500_0000]);
        assert_eq!(desk.queue(0x1, channel, 0, 0).0, NOT_COMPLETE);
    }

    #[test]
    fn the_timeout_comes_after_the_channel_and_before_full_or_empty() {
        let mut desk = Desk::fresh();
        let channel = desk.open(0, b"PIPE_1").1[A0];
        for call in [0x0, 0x1, 0x5] {
            for d3 in [1, 0xFFFF, 0x8000, 0x0001_0001] {
                assert_eq!(desk.queue(call, channel, 0, d3).0, BAD_PARAMETER);
                assert_eq!(desk.queue(call, channel + 1, 0, d3).0, CHANNEL_NOT_OPEN);
            }
        }
        assert_eq!(desk.queue(0x1, channel, 0, 0xFFFF_0000).0, NOT_COMPLETE);
        assert_eq!(desk.queue(0x5, channel, 0, 0xFFFF_0000).0, 0);
        assert_eq!(desk.queue(0x5, channel, 0, 1).0, BAD_PARAMETER);
        assert_eq!(desk.queue(0x5, channel, 0, 0).0, NOT_COMPLETE);
    }

    #[test]
    fn one_value_may_name_a_job_and_a_channel() {
        let mut desk = Desk::fresh();
        let old = desk.job(true, 0);
        desk.job_call(0x5, old, 0, 0, 0);
        desk.pick();
        let job = desk.job(true, 0);
        desk.open(0, b"PIPE_1");
        let channel = desk.open(0, b"PIPE_1").1[A0];
        assert_eq!((job, channel), (0x0002_0001, 0x0002_0001));
        assert_eq!(desk.close(channel).0, 0);
        assert_eq!(desk.queue(0x5, job, 1, 0).0, CHANNEL_NOT_OPEN);
        assert_eq!(desk.job_call(0xB, job, 1, 0, 0).0, 0);
    }
}
