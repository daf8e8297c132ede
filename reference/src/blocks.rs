//! Blocks: placing and giving back, the same in both areas, and the calls $6, $18 and $19.

use std::ops::Range;

use crate::jobs;
use crate::keys::*;
use crate::picture::*;
use crate::registers::*;

/// The heap's longwords.
pub fn heap(picture: &[u32]) -> Range<usize> {
    HEAP..HEAP + picture[HEAP_LENGTH] as usize
}

/// The transient area's longwords.
pub fn transient(picture: &[u32]) -> Range<usize> {
    HEAP + picture[HEAP_LENGTH] as usize..picture.len()
}

/// The address of the first byte of the longword at this index.
pub fn address(index: usize) -> u32 {
    4 * index as u32
}

/// The address of the first byte of room of the block whose header stands at this index.
pub fn room(at: usize) -> u32 {
    address(at) + block::HEADER_BYTES
}

/// The index behind the block whose header stands at this index.
fn end(picture: &[u32], at: usize) -> usize {
    at + (picture[at + block::LENGTH] / 4) as usize
}

fn is_free(picture: &[u32], at: usize) -> bool {
    picture[at + block::KIND] == block::FREE
}

fn write_header(picture: &mut [u32], at: usize, header: [u32; block::HEADER]) {
    picture[at..at + block::HEADER].copy_from_slice(&header);
}

/// A length in bytes rounded up to 16.
pub fn rounded(bytes: u64) -> u64 {
    bytes.next_multiple_of(u64::from(block::HEADER_BYTES))
}

/// The lowest free block of the area whose length is enough.
fn first_fitting(picture: &[u32], area: Range<usize>, length: u64) -> Option<usize> {
    let mut at = area.start;
    while at < area.end {
        if is_free(picture, at) && u64::from(picture[at + block::LENGTH]) >= length {
            return Some(at);
        }
        at = end(picture, at);
    }
    None
}

/// Places a block of this many bytes, header included and rounded up to 16, and answers its header's index.
///
/// It takes the low end of the lowest free block whose length is enough; the rest stays free; room is cleared.
pub fn place(
    picture: &mut [u32],
    area: Range<usize>,
    bytes: u64,
    kind: u32,
    owner: u32,
    start: u32,
) -> Result<usize, Key> {
    let length = rounded(bytes);
    let Some(at) = first_fitting(picture, area, length) else { return Err(OUT_OF_MEMORY) };
    let length = length as u32;
    let rest = picture[at + block::LENGTH] - length;
    let behind = at + (length / 4) as usize;
    write_header(picture, at, [length, kind, owner, start]);
    picture[at + block::HEADER..behind].fill(0);
    if rest > 0 {
        write_header(picture, behind, [rest, block::FREE, 0, 0]);
    }
    Ok(at)
}

/// A block that the walk of an area has met, and the block below it.
pub struct Met {
    at: usize,
    below: Option<usize>,
}

/// Walks the area up to the header at this index, if there is one.
pub fn meet(picture: &[u32], area: Range<usize>, at: usize) -> Option<Met> {
    let mut below = None;
    let mut here = area.start;
    while here < at && here < area.end {
        below = Some(here);
        here = end(picture, here);
    }
    (here == at && here < area.end).then_some(Met { at, below })
}

/// Frees a block, merging it with free neighbours in the area; an absorbed header becomes four zeros.
pub fn give_back(picture: &mut [u32], area: Range<usize>, Met { at, below }: Met) {
    let mut start = at;
    let mut length = picture[at + block::LENGTH];
    let above = end(picture, at);
    if above < area.end && is_free(picture, above) {
        length += picture[above + block::LENGTH];
        write_header(picture, above, [0; block::HEADER]);
    }
    if let Some(below) = below.filter(|&below| is_free(picture, below)) {
        length += picture[below + block::LENGTH];
        write_header(picture, at, [0; block::HEADER]);
        start = below;
    }
    write_header(picture, start, [length, block::FREE, 0, 0]);
}

/// Frees every block of the area whose owner goes, in one sweep that joins whatever is free.
pub fn give_back_all(picture: &mut [u32], area: Range<usize>, goes: impl Fn(u32) -> bool) {
    let mut free: Option<usize> = None;
    let mut at = area.start;
    while at < area.end {
        let length = picture[at + block::LENGTH];
        if !is_free(picture, at) && !goes(picture[at + block::OWNER]) {
            free = None;
        } else if let Some(below) = free {
            picture[below + block::LENGTH] += length;
            write_header(picture, at, [0; block::HEADER]);
        } else {
            write_header(picture, at, [length, block::FREE, 0, 0]);
            free = Some(at);
        }
        at += (length / 4) as usize;
    }
}

/// $6: the longest free transient block less 16, or 0.
pub fn ask_free(registers: &mut Registers, picture: &[u32]) -> Answer {
    let area = transient(picture);
    let mut longest = block::HEADER_BYTES;
    let mut at = area.start;
    while at < area.end {
        if is_free(picture, at) {
            longest = longest.max(picture[at + block::LENGTH]);
        }
        at = end(picture, at);
    }
    registers[D1] = longest - block::HEADER_BYTES;
    registers[D2..].fill(0);
    Ok(())
}

/// $18: takes a plain block of the heap.
pub fn take(registers: &mut Registers, picture: &mut [u32]) -> Answer {
    let bytes = registers[D1];
    if (bytes as i32) < 1 {
        return Err(BAD_PARAMETER);
    }
    let Some(owner) = jobs::named(picture, registers[D2]) else { return Err(INVALID_JOB) };
    let owner = picture[job_record(owner) + job::NUMBER];
    let whole = u64::from(block::HEADER_BYTES) + u64::from(bytes);
    let at = place(picture, heap(picture), whole, block::PLAIN, owner, 0)?;
    registers[D1] = picture[at + block::LENGTH] - block::HEADER_BYTES;
    registers[D2..].fill(0);
    registers[A0] = room(at);
    Ok(())
}

/// $19: frees the plain block whose header A0 stands behind.
pub fn free(registers: &mut Registers, picture: &mut [u32]) -> Answer {
    let area = heap(picture);
    let Some(header) = registers[A0].checked_sub(block::HEADER_BYTES).filter(|header| header % 4 == 0) else {
        return Err(BAD_PARAMETER);
    };
    let at = (header / 4) as usize;
    let Some(met) = meet(picture, area.clone(), at) else { return Err(BAD_PARAMETER) };
    if picture[at + block::KIND] != block::PLAIN {
        return Err(BAD_PARAMETER);
    }
    give_back(picture, area, met);
    registers.fill(0);
    Ok(())
}

#[cfg(test)]
mod tests {
    use super::*;
    use crate::desk::{Desk, REST};

    #[test]
    fn the_desk_bench_takes() {
        let mut desk = Desk::fresh();
        let (key, after) = desk.take(100, 0);
        assert_eq!((key, after), (0, [0, 112, 0, 0, 1_584, 0, 0, 0]));
        let (key, after) = desk.take(1, 0);
        assert_eq!((key, after[A0], after[D1]), (0, 1_712, 16));
        let before = desk.picture.clone();
        assert_eq!(desk.take(849, 0).0, OUT_OF_MEMORY);
        assert_eq!(desk.picture, before);
        let (key, after) = desk.take(848, 0);
        assert_eq!((key, after[A0], after[D1]), (0, 1_744, 848));
        assert_eq!(desk.take(1, 0).0, OUT_OF_MEMORY);
    }

    #[test]
    fn taking_checks_length_then_owner_then_room() {
        let mut desk = Desk::fresh();
        for bytes in [0, 0x8000_0000, NOBODY] {
            assert_eq!(desk.take(bytes, 5).0, BAD_PARAMETER);
        }
        assert_eq!(desk.take(0x7FFF_FFFF, 5).0, INVALID_JOB);
        assert_eq!(desk.take(0x7FFF_FFFF, 0).0, OUT_OF_MEMORY);
        assert_eq!(desk.take(1_009, 0).0, OUT_OF_MEMORY);
        assert_eq!(desk.take(1_008, 0).0, 0);
    }

    #[test]
    fn an_owner_with_bit_15_is_the_current_job() {
        let mut desk = Desk::fresh();
        let child = desk.job(true, 1);
        desk.picture[CURRENT] = child;
        for owner in [0x8000, 0xFFFF, NOBODY, 0x1234_8765] {
            let at = (desk.take(8, owner).1[A0] / 4) as usize - 4;
            assert_eq!(desk.header(at), [32, block::PLAIN, child, 0]);
        }
        let at = (desk.take(8, 0).1[A0] / 4) as usize - 4;
        assert_eq!(desk.header(at), [32, block::PLAIN, 0, 0]);
        for dead in [0x7FFF, 32, 0x0002_0001, 1] {
            assert_eq!(desk.take(8, dead).0, INVALID_JOB);
        }
        assert_eq!(desk.current(), child);
    }

    #[test]
    fn placing_takes_the_low_end_of_the_lowest_that_fits_and_clears_room_only() {
        let mut desk = Desk::fresh();
        let rooms: Vec<u32> = [48, 16, 16, 16].iter().map(|&bytes| desk.take(bytes, 0).1[A0]).collect();
        for room in [rooms[0], rooms[2]] {
            desk.picture[(room / 4) as usize..][..4].fill(0xDEAD_BEEF);
            assert_eq!(desk.free(room).0, 0);
        }
        desk.picture[HEAP + 8..HEAP + 16].fill(0x0BAD_CAFE);
        let before = desk.picture.clone();
        // The hole of 64 bytes at the heap's start is split: 32 taken and cleared, 32 stay free with their old bytes.
        let (key, after) = desk.take(16, 0);
        assert_eq!((key, after[A0], after[D1]), (0, 4 * HEAP as u32 + 16, 16));
        desk.changed_only(
            &before,
            &[(392, 32), (393, 1), (396, 0), (397, 0), (398, 0), (399, 0), (400, 32), (401, 0), (402, 0), (403, 0)],
        );
        // 33 bytes and more fit behind only; 17 need 48 and don't fit the holes of 32.
        let (_, after) = desk.take(17, 0);
        assert_eq!(after[A0], rooms[3] + 32);
        let (_, after) = desk.take(1, 0);
        assert_eq!(after[A0], 1_600 + 16);
        let (_, after) = desk.take(1, 0);
        assert_eq!(after[A0], rooms[2]);
    }

    #[test]
    fn freeing_merges_with_free_neighbours_and_zeroes_absorbed_headers() {
        let build = || {
            let mut desk = Desk::fresh();
            let rooms: Vec<u32> = [16, 16, 16].iter().map(|&bytes| desk.take(bytes, 0).1[A0]).collect();
            assert_eq!(desk.take(1_024 - 3 * 32 - 16, 0).0, 0);
            rooms.iter().for_each(|room| desk.picture[(room / 4) as usize] = *room);
            (desk, rooms)
        };
        // No neighbour free.
        let (mut desk, rooms) = build();
        let before = desk.picture.clone();
        let (key, after) = desk.free(rooms[1]);
        assert_eq!((key, after), (0, [0; 8]));
        desk.changed_only(&before, &[(401, 0)]);
        // The lower one free.
        let (mut desk, rooms) = build();
        desk.free(rooms[0]);
        let before = desk.picture.clone();
        desk.free(rooms[1]);
        desk.changed_only(&before, &[(392, 64), (400, 0), (401, 0)]);
        // The upper one free.
        let (mut desk, rooms) = build();
        desk.free(rooms[2]);
        let before = desk.picture.clone();
        desk.free(rooms[1]);
        desk.changed_only(&before, &[(400, 64), (401, 0), (408, 0)]);
        // Both free.
        let (mut desk, rooms) = build();
        desk.free(rooms[0]);
        desk.free(rooms[2]);
        let before = desk.picture.clone();
        desk.free(rooms[1]);
        desk.changed_only(&before, &[(392, 96), (400, 0), (401, 0), (408, 0)]);
    }

    #[test]
    fn the_last_heap_block_does_not_merge_with_the_transient_area() {
        let mut desk = Desk::fresh();
        let room = desk.take(1_008, 0).1[A0];
        let before = desk.picture.clone();
        desk.free(room);
        desk.changed_only(&before, &[(393, 0)]);
    }

    #[test]
    fn freed_neighbours_together_make_room() {
        let mut desk = Desk::fresh();
        let first = desk.take(480, 0).1[A0];
        let second = desk.take(480, 0).1[A0];
        assert_eq!(desk.take(500, 0).0, OUT_OF_MEMORY);
        desk.free(first);
        assert_eq!(desk.take(500, 0).0, OUT_OF_MEMORY);
        desk.free(second);
        assert_eq!(desk.take(1_008, 0).0, 0);
    }

    #[test]
    fn freeing_asks_for_the_first_byte_after_a_plain_blocks_header() {
        let mut desk = Desk::fresh();
        let room = desk.take(100, 0).1[A0];
        desk.open(0, b"PIPE_3");
        desk.job(true, 0);
        let inside = (room / 4) as usize;
        desk.picture[inside..inside + 4].copy_from_slice(&[32, block::PLAIN, 0, 0]);
        let queue = room + 128;
        let free = queue + 48;
        let job = 4 * (HEAP as u32 + 256) + 16;
        let wrong = [0, 4, 15, 16, 32, room - 16, room + 1, room + 2, room + 4, room + 16, room - 4, queue, free, job];
        for place in wrong.into_iter().chain([NOBODY, 0xFFFF_FFF0, 4_096, 4_112, 0x8000_0000, room | 0x8000_0000]) {
            assert_eq!(desk.free(place).0, BAD_PARAMETER, "A0 {place}");
        }
        assert_eq!(desk.free(room).0, 0);
        assert_eq!(desk.free(room).0, BAD_PARAMETER);
    }

    #[test]
    fn freeing_asks_no_owner() {
        let mut desk = Desk::fresh();
        let child = desk.job(true, 1);
        let room = desk.take(5, 0).1[A0];
        desk.picture[CURRENT] = child;
        assert_eq!(desk.free(room).0, 0);
        assert_eq!(desk.current(), child);
    }

    #[test]
    fn the_longest_free_transient_block_is_answered_less_16() {
        let mut desk = Desk::fresh();
        let ask = |desk: &mut Desk| {
            let (key, after) = desk.all(1, [0x6, REST, REST, REST, REST, REST, REST, REST], b"");
            assert_eq!((key, &after[D2..]), (0, &[0; 6][..]));
            after[D1]
        };
        assert_eq!(ask(&mut desk), 1_488);
        let job = desk.create(0, 996, 4).1[D1];
        assert_eq!(ask(&mut desk), 1_488 - 1_024);
        desk.create(0, 480 - 36, 4);
        assert_eq!(ask(&mut desk), 0);
        desk.create(0, 0, 0);
        let (key, _) = desk.job_call(0x5, job, 0, 0, 0);
        assert_eq!(key, 0);
        desk.pick();
        assert_eq!(ask(&mut desk), 1_008);
        desk.create(0, 1_004, 4);
        assert_eq!(ask(&mut desk), 0);
    }
}
