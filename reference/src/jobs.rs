//! Jobs: the calls $0, $1, $2, $4, $5, $8, $9, $A and $B of trap 1.

use crate::blocks;
use crate::keys::*;
use crate::picture::*;
use crate::registers::*;

/// What $0 answers as the system's version: the characters 1.00.
const VERSION: u32 = 0x312E_3030;
/// The least D3 of $1.
const LEAST_DATA: u32 = 4;
/// What $2 adds to the priority of a suspended job.
const SUSPENDED: u32 = 0xFF00_0000;

/// The position of the job that a register names: the current job where bit 15 of the low word is set.
///
/// Somebody is current when a call asks this.
pub fn named(picture: &[u32], register: u32) -> Option<usize> {
    if means_current(register) {
        Some(position(picture[CURRENT]))
    } else {
        live_job(picture, JobNumber(register))
    }
}

/// The job and all its descendants, as a mask of positions.
pub fn tree(picture: &[u32], top: usize) -> u32 {
    let mut members = 1 << top;
    let mut others = picture[JOB_MASK] & !members;
    loop {
        let before = members;
        for k in positions(others) {
            let owner = picture[job_record(k) + job::OWNER];
            if owner != NOBODY && in_use(members, position(owner)) {
                members |= 1 << k;
            }
        }
        if members == before {
            return members;
        }
        others &= !members;
    }
}

/// Whether the tree has the member's position: its owners lead up to the top.
fn leads_up_to(picture: &[u32], member: usize, top: usize) -> bool {
    let mut here = member;
    while here != top {
        let owner = picture[job_record(here) + job::OWNER];
        if owner == NOBODY {
            return false;
        }
        here = position(owner);
    }
    true
}

/// $0: the current job and the system.
pub fn ask_system(registers: &mut Registers, picture: &[u32]) -> Answer {
    registers[D1] = picture[CURRENT];
    registers[D2] = VERSION;
    registers[A0] = 0;
    Ok(())
}

/// $1: creates a job, owned by the job that D1 names, or by nobody where D1 is negative.
pub fn create(registers: &mut Registers, picture: &mut [u32]) -> Answer {
    let owner = if (registers[D1] as i32) < 0 { NOBODY } else { registers[D1] };
    if owner != NOBODY && live_job(picture, JobNumber(owner)).is_none() {
        return Err(INVALID_JOB);
    }
    if registers[D3] < LEAST_DATA {
        return Err(BAD_PARAMETER);
    }
    let Some(position) = free_position(picture[JOB_MASK]) else { return Err(INVALID_JOB) };
    let tag = picture[LAST_JOB_TAG] + 1;
    if tag > LAST_TAG {
        return Err(INVALID_JOB);
    }
    let whole = u64::from(block::HEADER_BYTES) + u64::from(registers[D2]) + u64::from(registers[D3]);
    let at = blocks::place(picture, blocks::transient(picture), whole, block::JOB, owner, registers[A1])?;

    let number = number(tag, position);
    picture[LAST_JOB_TAG] = tag;
    picture[JOB_MASK] |= 1 << position;
    let record = job_record(position);
    picture[record..record + JOB_RECORD].copy_from_slice(&[number, owner, blocks::address(at), 0, 0, 0, 0, 0]);
    registers[D1] = number;
    registers[A0] = blocks::room(at);
    Ok(())
}

/// $2: asks about a job in the tree of D2.
pub fn ask(registers: &mut Registers, picture: &[u32]) -> Answer {
    let Some(top) = live_job(picture, JobNumber(registers[D2])) else { return Err(INVALID_JOB) };
    let Some(asked) = named(picture, registers[D1]) else { return Err(INVALID_JOB) };
    if !leads_up_to(picture, asked, top) {
        return Err(INVALID_JOB);
    }
    let record = job_record(asked);
    let asked_tag = tag(picture[record + job::NUMBER]);
    let next = positions(tree(picture, top))
        .map(|k| picture[job_record(k) + job::NUMBER])
        .filter(|&number| tag(number) > asked_tag)
        .min_by_key(|&number| tag(number));
    let suspended = if picture[record + job::TIMEOUT] != 0 { SUSPENDED } else { 0 };
    registers[D1] = next.unwrap_or(0);
    registers[D2] = picture[record + job::OWNER];
    registers[D3] = suspended + picture[record + job::PRIORITY];
    registers[A0] = if asked == 0 { 0 } else { picture[record + job::BASE] + block::HEADER_BYTES };
    registers[A1] = 0;
    Ok(())
}

/// $4: ends a tree in which no job is active.
pub fn end_inactive(registers: &mut Registers, picture: &mut [u32]) -> Answer {
    let top = top_to_end(registers, picture)?;
    let members = tree(picture, top);
    if positions(members).any(|k| active(picture[job_record(k) + job::PRIORITY])) {
        return Err(NOT_COMPLETE);
    }
    end_tree(registers, picture, members)
}

/// $5: ends a tree, active or not.
pub fn end_forced(registers: &mut Registers, picture: &mut [u32]) -> Answer {
    let top = top_to_end(registers, picture)?;
    let members = tree(picture, top);
    end_tree(registers, picture, members)
}

/// The job that D1 names, which is live and is not job 0.
fn top_to_end(registers: &Registers, picture: &[u32]) -> Result<usize, Key> {
    match named(picture, registers[D1]) {
        None => Err(INVALID_JOB),
        Some(0) => Err(BAD_PARAMETER),
        Some(top) => Ok(top),
    }
}

/// Takes the members of a tree with their blocks and channels, and releases those who wait for them from outside.
fn end_tree(registers: &mut Registers, picture: &mut [u32], members: u32) -> Answer {
    for k in positions(picture[JOB_MASK] & !members) {
        let record = job_record(k);
        let wait = picture[record + job::WAIT];
        if wait != 0 && in_use(members, position(wait)) {
            picture[record + job::TIMEOUT] = 0;
            picture[record + job::WAIT] = 0;
            picture[record + job::KEY] = registers[D3];
        }
    }
    for k in positions(picture[CHANNEL_MASK]) {
        let record = channel_record(k);
        if in_use(members, position(picture[record + channel::OWNER])) {
            picture[record..record + CHANNEL_RECORD].fill(0);
            picture[CHANNEL_MASK] &= !(1 << k);
        }
    }
    for k in positions(members) {
        let record = job_record(k);
        let at = (picture[record + job::BASE] / 4) as usize;
        picture[at + block::KIND] = block::FREE;
        picture[record..record + JOB_RECORD].fill(0);
    }
    picture[JOB_MASK] &= !members;
    picture[CURRENT] = NOBODY;
    blocks::give_back_all(picture, blocks::heap(picture), |owner| in_use(members, position(owner)));
    blocks::give_back_all(picture, blocks::transient(picture), |_| false);
    registers.fill(0);
    Ok(())
}

/// $8: suspends a job.
pub fn suspend(registers: &mut Registers, picture: &mut [u32]) -> Answer {
    let Some(position) = named(picture, registers[D1]) else { return Err(INVALID_JOB) };
    let timeout = i32::from(low_word(registers[D3]));
    if timeout < WITHOUT_END || timeout == 0 || registers[A1] != 0 {
        return Err(BAD_PARAMETER);
    }
    let record = job_record(position);
    picture[record + job::ACCUMULATED] = 0;
    picture[record + job::TIMEOUT] = timeout as u32;
    picture[record + job::WAIT] = 0;
    picture[record + job::KEY] = 0;
    answer_record(registers, picture, position)
}

/// $9: releases a job.
pub fn release(registers: &mut Registers, picture: &mut [u32]) -> Answer {
    let Some(position) = named(picture, registers[D1]) else { return Err(INVALID_JOB) };
    let record = job_record(position);
    if picture[record + job::TIMEOUT] != 0 {
        picture[record + job::TIMEOUT] = 0;
        picture[record + job::WAIT] = 0;
        picture[record + job::KEY] = 0;
    }
    answer_record(registers, picture, position)
}

/// $A: activates a job; with -1 the caller waits for it.
pub fn activate(registers: &mut Registers, picture: &mut [u32]) -> Answer {
    let Some(position) = named(picture, registers[D1]) else { return Err(INVALID_JOB) };
    let record = job_record(position);
    if active(picture[record + job::PRIORITY]) {
        return Err(NOT_COMPLETE);
    }
    let priority = u32::from(low_byte(registers[D2]));
    if !(1..=GREATEST_PRIORITY).contains(&priority) {
        return Err(BAD_PARAMETER);
    }
    let timeout = i32::from(low_word(registers[D3]));
    let waits = timeout == WITHOUT_END;
    if !(timeout == 0 || waits) || waits && position == 0 {
        return Err(BAD_PARAMETER);
    }
    picture[record + job::PRIORITY] = priority;
    picture[record + job::ACCUMULATED] = 0;
    if waits {
        let caller = job_record(crate::picture::position(picture[CURRENT]));
        picture[caller + job::ACCUMULATED] = 0;
        picture[caller + job::TIMEOUT] = WITHOUT_END as u32;
        picture[caller + job::WAIT] = picture[record + job::NUMBER];
    }
    answer_record(registers, picture, position)
}

/// $B: sets a job's priority.
pub fn set_priority(registers: &mut Registers, picture: &mut [u32]) -> Answer {
    let Some(position) = named(picture, registers[D1]) else { return Err(INVALID_JOB) };
    let priority = u32::from(low_byte(registers[D2]));
    if priority > GREATEST_PRIORITY {
        return Err(BAD_PARAMETER);
    }
    let record = job_record(position);
    picture[record + job::PRIORITY] = priority;
    picture[record + job::ACCUMULATED] = 0;
    answer_record(registers, picture, position)
}

/// $8 to $B answer the number and the record's offset, and leave nobody current.
fn answer_record(registers: &mut Registers, picture: &mut [u32], position: usize) -> Answer {
    let record = job_record(position);
    registers[D1] = picture[record + job::NUMBER];
    registers[A0] = blocks::address(record);
    picture[CURRENT] = NOBODY;
    Ok(())
}

#[cfg(test)]
mod tests {
    use super::*;
    use crate::desk::{Desk, REST};

    const MINUS_1: u32 = 0xFFFF_FFFF;

    #[test]
    fn the_system_is_asked() {
        let mut desk = Desk::fresh();
        let child = desk.job(true, 4);
        desk.picture[CURRENT] = child;
        let (key, after) = desk.all(1, [0, REST, REST, REST, REST, REST, REST, REST], b"");
        assert_eq!((key, after), (0, [0, child, 0x312E_3030, REST, 0, REST, REST, REST]));
    }

    #[test]
    fn the_desk_bench_creates() {
        let mut desk = Desk::fresh();
        assert_eq!(desk.create(0, 1_429, 60).0, OUT_OF_MEMORY);
        assert_eq!(desk.create(0, 1_428, 3).0, BAD_PARAMETER);
        let before = desk.picture.clone();
        let (key, after) = desk.create(0, 1_428, 60);
        assert_eq!((key, after), (0, [0, 0x0001_0001, 1_428, 60, 2_608, 0x4000, REST, REST]));
        desk.changed_only(
            &before,
            &[(LAST_JOB_TAG, 1), (JOB_MASK, 3), (16, 0x0001_0001), (18, 2_592), (649, block::JOB), (651, 0x4000)],
        );
    }

    #[test]
    fn creating_checks_owner_then_data_then_position_then_tag_then_room() {
        let mut desk = Desk::sized(1_536, 128);
        for dead in [1, 32, 0xFFFF, 0x8000, 0x0001_0001, 0x7FFF_FFFF] {
            assert_eq!(desk.create(dead, 0, 0).0, INVALID_JOB);
        }
        for data in 0..4 {
            assert_eq!(desk.create(0, MINUS_1, data).0, BAD_PARAMETER);
        }
        for (code, data) in
            [(MINUS_1, MINUS_1), (MINUS_1, 4), (0, MINUS_1), (0xFFFF_FFEC, 4), (0x8000_0000, 0x8000_0000)]
        {
            assert_eq!(desk.create(0, code, data).0, OUT_OF_MEMORY);
        }
        assert_eq!(desk.picture[LAST_JOB_TAG], 0);
        for k in 1..POSITIONS as u32 {
            assert_eq!(desk.create(MINUS_1, 0, 4).1[D1], number(k, k as usize));
        }
        assert_eq!(desk.create(0, MINUS_1, 4).0, INVALID_JOB);
        assert_eq!(desk.create(0, MINUS_1, 3).0, BAD_PARAMETER);
        desk.picture[LAST_JOB_TAG] = LAST_TAG;
        assert_eq!(desk.job_call(0x5, 0x0007_0007, 0, 0, 0).0, 0);
        desk.pick();
        assert_eq!(desk.create(0, MINUS_1, 4).0, INVALID_JOB);
        desk.picture[LAST_JOB_TAG] = LAST_TAG - 1;
        assert_eq!(desk.create(0, MINUS_1, 4).0, OUT_OF_MEMORY);
        assert_eq!(desk.create(0, 0, 4).1[D1], 0x7FFF_0007);
        assert_eq!(desk.job_call(0x5, 0x7FFF_0007, 0, 0, 0).0, 0);
        desk.pick();
        assert_eq!(desk.create(0, 0, 4).0, INVALID_JOB);
    }

    /// Creates a job and sees that it is the owner's, in its record and in its block's header, and that the caller goes on.
    fn create_and_see_owner(desk: &mut Desk, d1: u32, owner: u32) {
        let caller = desk.current();
        let (key, after) = desk.create(d1, 0, 4);
        assert_eq!(key, 0);
        assert_eq!(desk.record(after[D1])[..2], [after[D1], owner]);
        assert_eq!(desk.record(after[D1])[3..], [0; 5]);
        assert_eq!(desk.header((after[A0] / 4) as usize - 4), [32, block::JOB, owner, 0x4000]);
        assert_eq!(desk.current(), caller);
    }

    #[test]
    fn d1_names_the_owner_of_a_new_job() {
        let mut desk = Desk::fresh();
        let child = desk.job(true, 9);
        let grandchild = desk.job_of(child, 8);
        let sister = desk.job_of(0, 7);
        let stranger = desk.job(false, 6);
        let inactive = desk.job_of(stranger, 0);
        let suspended = desk.job_of(child, 5);
        let waiting = desk.job_of(stranger, 4);
        *desk.field(suspended, job::TIMEOUT) = 3;
        *desk.field(waiting, job::TIMEOUT) = MINUS_1;
        *desk.field(waiting, job::WAIT) = suspended;
        let before = desk.picture.clone();
        for caller in [0, child, grandchild, sister, stranger] {
            for owner in [0, child, grandchild, sister, stranger, inactive, suspended, waiting] {
                desk.picture.clone_from(&before);
                desk.picture[CURRENT] = caller;
                create_and_see_owner(&mut desk, owner, owner);
            }
        }
    }

    #[test]
    fn nobody_owns_a_new_job_where_d1_is_negative() {
        let mut desk = Desk::fresh();
        let child = desk.job(true, 9);
        let negative = [MINUS_1, 0x8000_0000, child | 0x8000_0000, 0x8000_FFFF, 0xFFFF_0000, 0xFFFF_7FFF, 0xFFFF_FFFE];
        for caller in [0, child] {
            desk.picture[CURRENT] = caller;
            for d1 in negative {
                create_and_see_owner(&mut desk, d1, NOBODY);
            }
        }
    }

    #[test]
    fn creating_for_another_checks_in_the_same_order() {
        let mut desk = Desk::sized(1_536, 128);
        let caller = desk.job(true, 9);
        let owner = desk.job(false, 0);
        let dead = owner + 0x1_0000;
        desk.picture[CURRENT] = caller;
        for d1 in [dead, position(owner) as u32, owner | 0x8000, 0xFFFF, 0x8000] {
            assert_eq!(desk.create(d1, MINUS_1, 3).0, INVALID_JOB);
        }
        assert_eq!(desk.create(owner, MINUS_1, 3).0, BAD_PARAMETER);
        assert_eq!(desk.create(owner, MINUS_1, 4).0, OUT_OF_MEMORY);
        while desk.picture[JOB_MASK] != u32::MAX {
            create_and_see_owner(&mut desk, owner, owner);
        }
        assert_eq!(desk.create(owner, 0, 3).0, BAD_PARAMETER);
        assert_eq!(desk.create(owner, MINUS_1, 4).0, INVALID_JOB);
        let leaf = desk.picture[job_record(31)];
        assert_eq!(desk.job_call(0x5, leaf, 0, 0, 0).0, 0);
        desk.picture[CURRENT] = caller;
        desk.picture[LAST_JOB_TAG] = LAST_TAG;
        assert_eq!(desk.create(owner, 0, 3).0, BAD_PARAMETER);
        assert_eq!(desk.create(owner, MINUS_1, 4).0, INVALID_JOB);
        desk.picture[LAST_JOB_TAG] = LAST_TAG - 1;
        assert_eq!(desk.create(owner, MINUS_1, 4).0, OUT_OF_MEMORY);
        create_and_see_owner(&mut desk, owner, owner);
    }

    /// A launcher under job 0 is current. It has made a desk that nobody owns, and for the desk a helper, which has memory
    /// and a queue.
    fn launched() -> (Desk, [u32; 3]) {
        let mut desk = Desk::fresh();
        let launcher = desk.job(true, 9);
        desk.picture[CURRENT] = launcher;
        let owner = desk.job(false, 0);
        let helper = desk.job_of(owner, 0);
        assert_eq!(desk.take(20, helper).0, 0);
        assert_eq!(desk.open(helper, b"PIPE_8").0, 0);
        (desk, [launcher, owner, helper])
    }

    #[test]
    fn a_new_job_goes_with_the_owner_that_was_named() {
        let (mut desk, [launcher, owner, helper]) = launched();
        assert_eq!(desk.job_call(0x4, owner, 0, 0, 0), (0, [0; 8]));
        for gone in [owner, helper] {
            assert!(live_job(&desk.picture, JobNumber(gone)).is_none());
        }
        assert!(live_job(&desk.picture, JobNumber(launcher)).is_some());
        assert_eq!(desk.picture[CHANNEL_MASK], 0);
        assert_eq!(desk.header(HEAP), [1_024, block::FREE, 0, 0]);
    }

    #[test]
    fn a_new_job_stays_where_its_maker_ends() {
        let (mut desk, [launcher, owner, helper]) = launched();
        assert_eq!(desk.job_call(0x5, launcher, 0, 0, 0), (0, [0; 8]));
        assert!(live_job(&desk.picture, JobNumber(launcher)).is_none());
        for stays in [owner, helper] {
            assert!(live_job(&desk.picture, JobNumber(stays)).is_some());
        }
        assert_eq!(desk.picture[CHANNEL_MASK], 1);
        assert_eq!(desk.header(HEAP)[..3], [48, block::PLAIN, helper]);
        // Its owner still has it.
        desk.pick();
        assert_eq!(desk.job_call(0x2, helper, owner, 0, 0).1[D2], owner);
        assert_eq!(desk.job_call(0x4, owner, 0, 0, 0).0, 0);
        assert_eq!(desk.picture[JOB_MASK], 1);
    }

    #[test]
    fn an_active_helper_keeps_its_owner_from_ordinary_removal_and_not_its_maker() {
        let (mut desk, [launcher, owner, helper]) = launched();
        *desk.field(helper, job::PRIORITY) = 1;
        assert_eq!(desk.job_call(0x4, owner, 0, 0, 0).0, NOT_COMPLETE);
        desk.picture[CURRENT] = 0;
        *desk.field(launcher, job::PRIORITY) = 0;
        assert_eq!(desk.job_call(0x4, launcher, 0, 0, 0).0, 0);
        assert!(live_job(&desk.picture, JobNumber(helper)).is_some());
    }

    #[test]
    fn a_job_may_be_created_for_an_owner_above_its_maker() {
        let mut desk = Desk::fresh();
        let child = desk.job(true, 9);
        let grandchild = desk.job_of(child, 8);
        desk.picture[CURRENT] = grandchild;
        let [aunt, sister] = [0, child].map(|owner| desk.job_of(owner, 0));
        assert_eq!(desk.job_call(0x5, grandchild, 0, 0, 0).0, 0);
        assert_eq!(tree(&desk.picture, position(child)), 1 << position(child) | 1 << position(sister));
        desk.pick();
        assert_eq!(desk.job_call(0x5, child, 0, 0, 0).0, 0);
        assert_eq!(desk.picture[JOB_MASK], 1 | 1 << position(aunt));
    }

    #[test]
    fn a_dead_number_answers_minus_2() {
        let mut desk = Desk::fresh();
        let old = desk.create(0, 0, 4).1[D1];
        assert_eq!(desk.job_call(0x5, old, 0, 0, 0).0, 0);
        assert_eq!(desk.pick().number, 0);
        let new = desk.create(0, 0, 4).1[D1];
        assert_eq!((old, new), (0x0001_0001, 0x0002_0001));
        for call in [0x4, 0x5, 0x8, 0x9, 0xA, 0xB] {
            assert_eq!(desk.job_call(call, old, 1, 1, 0).0, INVALID_JOB);
        }
        assert_eq!(desk.job_call(0x2, old, 0, 0, 0).0, INVALID_JOB);
        assert_eq!(desk.job_call(0x2, 0, old, 0, 0).0, INVALID_JOB);
        assert_eq!(desk.create(old, 0, 4).0, INVALID_JOB);
        assert_eq!(desk.take(5, old).0, INVALID_JOB);
        assert_eq!(desk.open(old, b"PIPE_5").0, INVALID_JOB);
    }

    #[test]
    fn asking_answers_the_member_with_the_next_greater_tag() {
        let mut desk = Desk::fresh();
        let child = desk.job(true, 7);
        let grandchild = desk.job_of(child, 6);
        let stranger = desk.job(false, 5);
        let second = desk.job(true, 0);
        *desk.field(grandchild, job::TIMEOUT) = MINUS_1;
        let room = |desk: &Desk, number| desk.record(number)[job::BASE] + 16;
        let ask = |desk: &mut Desk, d1, d2| desk.job_call(0x2, d1, d2, REST, REST);
        let expected = |d1, d2, d3, a0| (0, [0, d1, d2, d3, a0, 0, REST, REST]);
        assert_eq!(ask(&mut desk, 0, 0), expected(child, NOBODY, 32, 0));
        let a0 = room(&desk, child);
        assert_eq!(ask(&mut desk, child, 0), expected(grandchild, 0, 7, a0));
        let a0 = room(&desk, grandchild);
        assert_eq!(ask(&mut desk, grandchild, 0), expected(second, child, 0xFF00_0006, a0));
        assert_eq!(ask(&mut desk, grandchild, child), expected(0, child, 0xFF00_0006, a0));
        assert_eq!(ask(&mut desk, grandchild, grandchild), expected(0, child, 0xFF00_0006, a0));
        let a0 = room(&desk, second);
        assert_eq!(ask(&mut desk, second, 0), expected(0, 0, 0, a0));
        let a0 = room(&desk, stranger);
        assert_eq!(ask(&mut desk, stranger, stranger), expected(0, NOBODY, 5, a0));
        // Outside the tree, or not live; bit 15 counts in D1 only.
        for (d1, d2) in [(stranger, 0), (0, child), (second, child), (child, stranger), (child, grandchild)] {
            assert_eq!(ask(&mut desk, d1, d2).0, INVALID_JOB);
        }
        assert_eq!(ask(&mut desk, 0xFFFF, 0).1[D1], child);
        assert_eq!(ask(&mut desk, 0, 0xFFFF).0, INVALID_JOB);
        assert_eq!(ask(&mut desk, MINUS_1, MINUS_1).0, INVALID_JOB);
        assert_eq!(desk.current(), 0);
        // A position that is used again has a greater tag than those behind it.
        desk.job_call(0x5, child, 0, 0, 0);
        desk.pick();
        desk.picture[CURRENT] = 0;
        let again = desk.job(true, 0);
        assert!(position(again) < position(second));
        assert_eq!(ask(&mut desk, 0, 0).1[D1], second);
        assert_eq!(ask(&mut desk, second, 0).1[D1], again);
        assert_eq!(ask(&mut desk, again, 0).1[D1], 0);
    }

    #[test]
    fn ending_takes_the_tree_with_its_blocks_and_channels_and_no_more() {
        let mut desk = Desk::fresh();
        let stranger = desk.job(false, 5);
        desk.take(8, stranger);
        desk.open(stranger, b"PIPE_3");
        let before = desk.picture.clone();
        let child = desk.job(true, 7);
        let grandchild = desk.job_of(child, 6);
        let leaf = desk.job_of(grandchild, 0);
        desk.take(10, child);
        desk.open(child, b"PIPE_4");
        desk.take(10, leaf);
        desk.open(grandchild, b"PIPE_40");
        assert_eq!(desk.job_call(0x4, child, 0, 0, 0).0, NOT_COMPLETE);
        let (key, after) = desk.job_call(0x5, child, 0, 0, 0);
        assert_eq!((key, after), (0, [0; 8]));
        let mut expected = before;
        expected[CURRENT] = NOBODY;
        expected[LAST_JOB_TAG] = 4;
        expected[LAST_CHANNEL_TAG] = 3;
        // Old bytes of rooms stay: the two lengths of the queues that were.
        let left: Vec<(usize, u32)> =
            (0..1_024).filter(|&k| desk.picture[k] != expected[k]).map(|k| (k, desk.picture[k])).collect();
        assert!(
            left.iter().all(|&(k, longword)| k > HEAP && [4, 40].contains(&longword)) && left.len() == 2,
            "{left:?}"
        );
    }

    #[test]
    fn ending_refuses_job_0_and_active_trees() {
        let mut desk = Desk::fresh();
        let child = desk.job(true, 0);
        let grandchild = desk.job_of(child, 0);
        for call in [0x4, 0x5] {
            assert_eq!(desk.job_call(call, 0, 0, 0, 0).0, BAD_PARAMETER);
            assert_eq!(desk.job_call(call, MINUS_1, 0, 0, 0).0, BAD_PARAMETER);
            assert_eq!(desk.job_call(call, 0x0005_0001, 0, 0, 0).0, INVALID_JOB);
        }
        *desk.field(grandchild, job::PRIORITY) = 1;
        *desk.field(grandchild, job::TIMEOUT) = 9;
        assert_eq!(desk.job_call(0x4, child, 0, 0, 0).0, NOT_COMPLETE);
        assert_eq!(desk.job_call(0x4, grandchild, 0, 0, 0).0, NOT_COMPLETE);
        assert_eq!(desk.current(), 0);
        *desk.field(grandchild, job::PRIORITY) = 0;
        assert_eq!(desk.job_call(0x4, child, 0, 0, 0).0, 0);
        assert_eq!((desk.current(), desk.picture[JOB_MASK]), (NOBODY, 1));
    }

    #[test]
    fn ending_oneself_by_bit_15_leaves_nobody_current() {
        let mut desk = Desk::fresh();
        let child = desk.job(true, 9);
        desk.picture[CURRENT] = child;
        assert_eq!(desk.job_call(0x4, MINUS_1, 0, 0, 0).0, NOT_COMPLETE);
        assert_eq!(desk.job_call(0x5, MINUS_1, 0, 0, 0).0, 0);
        assert_eq!(desk.current(), NOBODY);
        assert_eq!(desk.job_call(0x0, 0, 0, 0, 0).0, INVALID_JOB);
    }

    #[test]
    fn waiters_outside_the_tree_are_released_with_d3() {
        let mut desk = Desk::fresh();
        let child = desk.job(true, 1);
        let grandchild = desk.job_of(child, 1);
        let stranger = desk.job(false, 0);
        let other = desk.job(false, 3);
        for (from, to) in [(stranger, grandchild), (child, stranger), (grandchild, child), (other, stranger)] {
            *desk.field(from, job::TIMEOUT) = MINUS_1;
            *desk.field(from, job::WAIT) = to;
            *desk.field(from, job::KEY) = 77;
        }
        let (key, _) = desk.job_call(0x5, child, 0, 0x89AB_CDEF, 0);
        assert_eq!(key, 0);
        assert_eq!(desk.record(stranger)[3..], [0, 0, 0, 0, 0x89AB_CDEF]);
        assert_eq!(desk.record(other)[3..], [3, 0, MINUS_1, stranger, 77]);
    }

    #[test]
    fn suspending_sets_the_timeout_and_clears_the_rest() {
        let mut desk = Desk::fresh();
        let child = desk.job(true, 9);
        let stranger = desk.job(false, 0);
        for (d3, timeout) in [(1, 1), (32_767, 32_767), (0xFFFF, MINUS_1), (0x1234_0002, 2), (0x0000_FFFF, MINUS_1)] {
            *desk.field(child, job::ACCUMULATED) = 500;
            *desk.field(child, job::TIMEOUT) = 0;
            *desk.field(child, job::KEY) = 5;
            let (key, after) = desk.job_call(0x8, child, REST, d3, 0);
            assert_eq!((key, after), (0, [0, child, REST, d3, 64, 0, REST, REST]));
            assert_eq!(desk.record(child)[3..], [9, 0, timeout, 0, 0]);
            assert_eq!(desk.current(), NOBODY);
            desk.picture[CURRENT] = 0;
        }
        for (d3, a1) in [(0, 0), (0x8000, 0), (0xFFFE, 0), (0x1_0000, 0), (5, 1), (5, 0x8000_0000)] {
            assert_eq!(desk.job_call(0x8, child, 0, d3, a1).0, BAD_PARAMETER);
        }
        assert_eq!(desk.job_call(0x8, 40, 0, 0, 1).0, INVALID_JOB);
        assert_eq!(desk.current(), 0);
        // A waiting job's wait ends; an inactive job and job 0 itself may be suspended.
        *desk.field(child, job::TIMEOUT) = MINUS_1;
        *desk.field(child, job::WAIT) = stranger;
        desk.job_call(0x8, child, 0, 4, 0);
        assert_eq!(desk.record(child)[5..], [4, 0, 0]);
        desk.picture[CURRENT] = 0;
        desk.job_call(0x8, stranger, 0, 4, 0);
        assert_eq!(desk.record(stranger)[3..], [0, 0, 4, 0, 0]);
        desk.picture[CURRENT] = 0;
        let (_, after) = desk.job_call(0x8, 0xABCD_8000, 0, 7, 0);
        assert_eq!((after[D1], after[A0]), (0, 32));
        assert_eq!(desk.record(0)[3..], [32, 0, 7, 0, 0]);
    }

    #[test]
    fn releasing_ends_a_suspension_and_leaves_others_alone() {
        let mut desk = Desk::fresh();
        let child = desk.job(true, 9);
        let stranger = desk.job(false, 0);
        *desk.field(child, job::ACCUMULATED) = 80;
        *desk.field(child, job::KEY) = 5;
        let before = desk.picture.clone();
        let (key, after) = desk.job_call(0x9, child, REST, REST, REST);
        assert_eq!((key, after), (0, [0, child, REST, REST, 64, REST, REST, REST]));
        desk.changed_only(&before, &[(CURRENT, NOBODY)]);
        desk.picture[CURRENT] = 0;
        *desk.field(stranger, job::TIMEOUT) = MINUS_1;
        *desk.field(stranger, job::WAIT) = child;
        *desk.field(stranger, job::KEY) = 6;
        let (_, after) = desk.job_call(0x9, stranger, 0, 0, 0);
        assert_eq!((after[D1], after[A0]), (stranger, 96));
        assert_eq!(desk.record(stranger)[3..], [0; 5]);
        desk.picture[CURRENT] = 0;
        assert_eq!(desk.job_call(0x9, 0x7FFF, 0, 0, 0).0, INVALID_JOB);
    }

    #[test]
    fn activating_checks_live_then_inactive_then_priority_then_d3() {
        let mut desk = Desk::fresh();
        let child = desk.job(true, 0);
        let active = desk.job(true, 1);
        assert_eq!(desk.job_call(0xA, 40, 0, 5, 0).0, INVALID_JOB);
        for job in [0, active, MINUS_1] {
            assert_eq!(desk.job_call(0xA, job, 0, 5, 0).0, NOT_COMPLETE);
        }
        for priority in [0, 128, 255, 0x100, 0xFFFF_FF80] {
            assert_eq!(desk.job_call(0xA, child, priority, 0, 0).0, BAD_PARAMETER);
        }
        for d3 in [1, 0xFFFE, 0x7FFF, 0x8000] {
            assert_eq!(desk.job_call(0xA, child, 127, d3, 0).0, BAD_PARAMETER);
        }
        let (key, after) = desk.job_call(0xA, child, 0x1234_567F, 0x5678_0000, REST);
        assert_eq!((key, after), (0, [0, child, 0x1234_567F, 0x5678_0000, 64, REST, REST, REST]));
        assert_eq!(desk.record(child)[3..], [127, 0, 0, 0, 0]);
        assert_eq!(desk.current(), NOBODY);
    }

    #[test]
    fn with_minus_1_the_caller_waits() {
        let mut desk = Desk::fresh();
        let child = desk.job(true, 0);
        *desk.field(0, job::ACCUMULATED) = 60;
        *desk.field(0, job::KEY) = 61;
        *desk.field(child, job::KEY) = 62;
        *desk.field(child, job::TIMEOUT) = 9;
        assert_eq!(desk.job_call(0xA, child, 5, 0xABCD_FFFF, 0).0, 0);
        assert_eq!(desk.record(0), [0, NOBODY, 0, 32, 0, MINUS_1, child, 61]);
        assert_eq!(desk.record(child)[3..], [5, 0, 9, 0, 62]);
        // Nobody waits for job 0; it may be activated without.
        let mut desk = Desk::fresh();
        let child = desk.job(true, 4);
        desk.picture[CURRENT] = child;
        *desk.field(0, job::PRIORITY) = 0;
        assert_eq!(desk.job_call(0xA, 0, 5, 0xFFFF, 0).0, BAD_PARAMETER);
        assert_eq!(desk.job_call(0xA, 0, 5, 0, 0).0, 0);
        // A job waits for its own owner.
        let mut desk = Desk::fresh();
        let child = desk.job(true, 0);
        let grandchild = desk.job_of(child, 6);
        desk.picture[CURRENT] = grandchild;
        assert_eq!(desk.job_call(0xA, child, 5, 0xFFFF, 0).0, 0);
        assert_eq!(desk.record(grandchild)[3..], [6, 0, MINUS_1, child, 0]);
    }

    #[test]
    fn setting_a_priority_clears_accumulated() {
        let mut desk = Desk::fresh();
        let child = desk.job(true, 9);
        for (d2, priority) in [(127, 127), (0, 0), (1, 1), (0xFFFF_FF05, 5)] {
            if desk.record(child)[job::PRIORITY] > 0 {
                *desk.field(child, job::ACCUMULATED) = 900;
            }
            *desk.field(child, job::KEY) = 8;
            let (key, after) = desk.job_call(0xB, child, d2, REST, REST);
            assert_eq!((key, after), (0, [0, child, d2, REST, 64, REST, REST, REST]));
            assert_eq!(desk.record(child)[3..], [priority, 0, 0, 0, 8]);
            assert_eq!(desk.current(), NOBODY);
            desk.picture[CURRENT] = 0;
        }
        for d2 in [128, 255, 0xFFFF_FFFF] {
            assert_eq!(desk.job_call(0xB, child, d2, 0, 0).0, BAD_PARAMETER);
            assert_eq!(desk.job_call(0xB, 40, d2, 0, 0).0, INVALID_JOB);
        }
        let (_, after) = desk.job_call(0xB, 0x8000, 0, 0, 0);
        assert_eq!((after[D1], after[A0]), (0, 32));
        assert_eq!(desk.pick().number, child);
    }

    #[test]
    fn trees_of_every_depth_and_width_end_whole() {
        for deep in [false, true] {
            for count in 1..POSITIONS {
                let mut desk = Desk::sized(1_536, 128);
                let mut owner = desk.job(true, 0);
                let top = owner;
                for _ in 1..count {
                    let job = desk.job_of(owner, 0);
                    owner = if deep { job } else { owner };
                }
                assert_eq!(tree(&desk.picture, 1).count_ones() as usize, count);
                assert_eq!(desk.job_call(0x4, top, 0, 0, 0).0, 0);
                assert_eq!(desk.picture[JOB_MASK], 1);
                assert_eq!(desk.header(HEAP + 128), [4 * (1_536 - 520), 0, 0, 0]);
            }
        }
    }
}
