//! The report: the tree of a job for the leader's screen, a line for each member.

use crate::jobs::tree;
use crate::keys::*;
use crate::picture::*;

/// The line of one member of a tree.
#[derive(Clone, Copy, PartialEq, Eq, Debug, Default)]
pub struct JobLine {
    pub number: u32,
    /// The owner's number, or $FFFFFFFF for none.
    pub owner: u32,
    /// How far below the top: 0 for the top, else its owner's depth and 1.
    pub depth: u32,
    pub priority: u32,
    pub suspended: bool,
}

/// What a report answers: the key, and how many lines were written, none with a refusal.
#[derive(Clone, Copy, PartialEq, Eq, Debug)]
pub struct Reported {
    pub key: Key,
    pub count: usize,
}

/// Writes a line for each member of the top's tree, in rising order of tag, and answers how many; a refusal writes none.
pub fn report(top: JobNumber, table: &mut [JobLine], picture: &[u32]) -> Result<usize, Key> {
    let Some(top) = live_job(picture, top) else { return Err(INVALID_JOB) };
    let members = tree(picture, top);
    let count = members.count_ones() as usize;
    let Some(lines) = table.get_mut(..count) else { return Err(BUFFER_OVERFLOW) };

    let mut numbers = [0; POSITIONS];
    for (number, k) in numbers.iter_mut().zip(positions(members)) {
        *number = picture[job_record(k) + job::NUMBER];
    }
    // The tag is a number's upper half, so numbers rise as tags do, and an owner stands before those that it owns.
    numbers[..count].sort_unstable();
    let mut depths = [0; POSITIONS];
    for (line, number) in lines.iter_mut().zip(numbers) {
        let here = position(number);
        let record = job_record(here);
        let owner = picture[record + job::OWNER];
        depths[here] = if here == top { 0 } else { depths[position(owner)] + 1 };
        *line = JobLine {
            number,
            owner,
            depth: depths[here],
            priority: picture[record + job::PRIORITY],
            suspended: picture[record + job::TIMEOUT] != 0,
        };
    }
    Ok(count)
}

#[cfg(test)]
mod tests {
    use super::*;
    use crate::desk::Desk;

    const MINUS_1: u32 = 0xFFFF_FFFF;

    fn line(number: u32, owner: u32, depth: u32, priority: u32, suspended: bool) -> JobLine {
        JobLine { number, owner, depth, priority, suspended }
    }

    #[test]
    fn a_line_for_each_member_by_rising_tag() {
        let mut desk = Desk::fresh();
        let child = desk.job(true, 7);
        let grandchild = desk.job_of(child, 6);
        let stranger = desk.job(false, 5);
        let second = desk.job(true, 0);
        let third = desk.job_of(grandchild, 127);
        let whole = [
            line(0, NOBODY, 0, 32, false),
            line(child, 0, 1, 7, false),
            line(grandchild, child, 2, 6, false),
            line(second, 0, 1, 0, false),
            line(third, grandchild, 3, 127, false),
        ];
        assert_eq!(desk.report(0, 32), Ok(whole.to_vec()));
        let below =
            [line(child, 0, 0, 7, false), line(grandchild, child, 1, 6, false), line(third, grandchild, 2, 127, false)];
        assert_eq!(desk.report(child, 32), Ok(below.to_vec()));
        assert_eq!(desk.report(second, 32), Ok(vec![line(second, 0, 0, 0, false)]));
        assert_eq!(desk.report(stranger, 32), Ok(vec![line(stranger, NOBODY, 0, 5, false)]));
        // A position that is used again has a greater tag than those behind it.
        desk.job_call(0x5, child, 0, 0, 0);
        desk.picture[CURRENT] = 0;
        let again = desk.job(true, 3);
        assert_eq!(position(again), position(child));
        let after = [line(0, NOBODY, 0, 32, false), line(second, 0, 1, 0, false), line(again, 0, 1, 3, false)];
        assert_eq!(desk.report(0, 32), Ok(after.to_vec()));
        for dead in [child, grandchild, third] {
            assert_eq!(desk.report(dead, 32), Err(INVALID_JOB));
        }
    }

    #[test]
    fn suspended_is_a_timeout_other_than_0() {
        let mut desk = Desk::fresh();
        let child = desk.job(true, 9);
        let other = desk.job(true, 0);
        for (timeout, wait, suspended) in
            [(0, 0, false), (1, 0, true), (32_767, 0, true), (MINUS_1, 0, true), (MINUS_1, other, true)]
        {
            for priority in [0, 1, 127] {
                *desk.field(child, job::PRIORITY) = priority;
                *desk.field(child, job::TIMEOUT) = timeout;
                *desk.field(child, job::WAIT) = wait;
                *desk.field(child, job::KEY) = 77;
                assert_eq!(desk.report(child, 1), Ok(vec![line(child, 0, 0, priority, suspended)]));
                assert_eq!(desk.report(other, 1), Ok(vec![line(other, 0, 0, 0, false)]));
            }
        }
    }

    #[test]
    fn the_picture_comes_before_the_top_before_the_table() {
        let mut desk = Desk::fresh();
        let child = desk.job(true, 9);
        let channel = desk.open(0, b"PIPE_4").1[crate::registers::A0];
        let dead = [
            child + 0x1_0000,
            child - 0x1_0000,
            child + 1,
            2,
            32,
            0xFFFF,
            0x8000,
            child | 0x8000,
            child | 0x8000_0000,
            channel,
            NOBODY,
        ];
        for top in dead {
            assert_eq!(desk.report(top, 32), Err(INVALID_JOB));
            assert_eq!(desk.report(top, 0), Err(INVALID_JOB));
        }
        assert_eq!(desk.report(0, 0), Err(BUFFER_OVERFLOW));
        assert_eq!(desk.report(0, 1), Err(BUFFER_OVERFLOW));
        assert_eq!(desk.report(child, 0), Err(BUFFER_OVERFLOW));
        for enough in [2, 3, 64] {
            assert_eq!(desk.report(0, enough).map(|lines| lines.len()), Ok(2));
        }
        // Whoever is current, or nobody, is nothing to a report.
        let before = desk.report(0, 2);
        for current in [child, NOBODY] {
            desk.picture[CURRENT] = current;
            assert_eq!(desk.report(0, 2), before);
        }
        desk.picture[SPARE] = 1;
        for (top, lines) in [(0, 32), (0, 0), (dead[0], 32), (dead[0], 0)] {
            assert_eq!(desk.report(top, lines), Err(NOT_SOUND));
        }
        desk.picture.clear();
        assert_eq!(desk.report(0, 32), Err(NOT_SOUND));
    }

    #[test]
    fn trees_of_every_depth_and_width_are_reported_whole() {
        for deep in [false, true] {
            for count in 1..POSITIONS {
                let mut desk = Desk::sized(1_536, 128);
                let mut owner = desk.job(true, 0);
                let mut expected = vec![line(owner, 0, 0, 0, false)];
                for k in 1..count as u32 {
                    let job = desk.job_of(owner, k);
                    expected.push(line(job, owner, if deep { k } else { 1 }, k, false));
                    owner = if deep { job } else { owner };
                }
                assert_eq!(desk.report(expected[0].number, count - 1), Err(BUFFER_OVERFLOW));
                assert_eq!(desk.report(expected[0].number, count), Ok(expected.clone()));
                let mut whole = vec![line(0, NOBODY, 0, 32, false)];
                whole.extend(expected.iter().map(|line| JobLine { depth: line.depth + 1, ..*line }));
                assert_eq!(desk.report(0, POSITIONS), Ok(whole));
            }
        }
    }
}
