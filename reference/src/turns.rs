//! Turns: pick and tick.

use crate::keys::Key;
use crate::picture::*;

/// What a pick answers: the job's number, or $FFFFFFFF, and its key to deliver.
#[derive(Clone, Copy, PartialEq, Eq, Debug)]
pub struct Picked {
    pub number: u32,
    pub key: Key,
}

fn is_ready(picture: &[u32], record: usize) -> bool {
    ready(picture[record + job::PRIORITY], picture[record + job::TIMEOUT])
}

/// Picks the ready job with the greatest accumulated, the lowest position on a tie; the others gain their priority.
pub fn pick(picture: &mut [u32]) -> Picked {
    let mut chosen: Option<usize> = None;
    for position in positions(picture[JOB_MASK]) {
        let record = job_record(position);
        if is_ready(picture, record)
            && chosen.is_none_or(|best| picture[record + job::ACCUMULATED] > picture[best + job::ACCUMULATED])
        {
            chosen = Some(record);
        }
    }
    let Some(chosen) = chosen else {
        picture[CURRENT] = NOBODY;
        return Picked { number: NOBODY, key: 0 };
    };
    for position in positions(picture[JOB_MASK]) {
        let record = job_record(position);
        if is_ready(picture, record) {
            let gained = picture[record + job::ACCUMULATED] + picture[record + job::PRIORITY];
            picture[record + job::ACCUMULATED] = gained.min(HOLD);
        }
    }
    picture[chosen + job::ACCUMULATED] = 0;
    let number = picture[chosen + job::NUMBER];
    picture[CURRENT] = number;
    Picked { number, key: std::mem::take(&mut picture[chosen + job::KEY]) as Key }
}

/// Lets each positive timeout fall by 1.
pub fn tick(picture: &mut [u32]) {
    for position in positions(picture[JOB_MASK]) {
        let timeout = &mut picture[job_record(position) + job::TIMEOUT];
        if *timeout as i32 > 0 {
            *timeout -= 1;
        }
    }
}

#[cfg(test)]
mod tests {
    use super::*;
    use crate::desk::Desk;

    const MINUS_1: u32 = 0xFFFF_FFFF;

    fn with_priorities(priorities: &[u32]) -> Desk {
        let mut desk = Desk::fresh();
        for &priority in &priorities[1..] {
            desk.job(true, priority);
        }
        *desk.field(0, job::PRIORITY) = priorities[0];
        if priorities[0] == 0 {
            desk.picture[CURRENT] = NOBODY;
        }
        desk
    }

    #[test]
    fn the_desk_bench_picks() {
        let mut desk = with_priorities(&[32, 64, 127]);
        let picked: Vec<usize> = (0..8).map(|_| position(desk.pick().number)).collect();
        assert_eq!(picked, [0, 2, 1, 2, 0, 1, 2, 0]);
    }

    #[test]
    fn the_others_gain_and_the_picked_job_starts_again() {
        let mut desk = with_priorities(&[32, 64, 127]);
        *desk.field(0x0001_0001, job::ACCUMULATED) = 8_150;
        *desk.field(0x0002_0002, job::ACCUMULATED) = 8_191;
        let before = desk.picture.clone();
        assert_eq!(desk.pick(), Picked { number: 0x0002_0002, key: 0 });
        desk.changed_only(&before, &[(CURRENT, 0x0002_0002), (12, 32), (20, 8_191), (28, 0)]);
        // The job that was current until now is one of the others.
        let before = desk.picture.clone();
        assert_eq!(desk.pick().number, 0x0001_0001);
        desk.changed_only(&before, &[(CURRENT, 0x0001_0001), (12, 64), (20, 0), (28, 127)]);
    }

    #[test]
    fn a_tie_goes_to_the_lowest_position() {
        let mut desk = with_priorities(&[0, 5, 5, 5]);
        for expected in [1, 2, 3, 1, 2, 3] {
            assert_eq!(position(desk.pick().number), expected);
        }
    }

    #[test]
    fn nobody_ready_leaves_nobody_current_and_nothing_else_moves() {
        let mut desk = with_priorities(&[9, 0, 7]);
        *desk.field(0x0002_0002, job::TIMEOUT) = 4;
        *desk.field(0x0002_0002, job::KEY) = 4;
        assert_eq!(desk.job_call(0x8, 0, 0, 0xFFFF, 0).0, 0);
        let before = desk.picture.clone();
        assert_eq!(desk.pick(), Picked { number: NOBODY, key: 0 });
        desk.changed_only(&before, &[]);
        desk.picture[CURRENT] = NOBODY;
        assert_eq!(desk.pick().number, NOBODY);
    }

    #[test]
    fn a_key_is_delivered_once() {
        let mut desk = with_priorities(&[0, 5]);
        *desk.field(0x0001_0001, job::KEY) = 0x8000_0001;
        assert_eq!(desk.pick(), Picked { number: 0x0001_0001, key: 0x8000_0001u32 as Key });
        assert_eq!(desk.pick(), Picked { number: 0x0001_0001, key: 0 });
    }

    #[test]
    fn a_tick_counts_every_positive_timeout_down() {
        let mut desk = with_priorities(&[32, 5, 0, 5, 5]);
        for (number, timeout) in [(0x0001_0001, 1), (0x0002_0002, 2), (0x0003_0003, 32_767), (0x0004_0004, MINUS_1)] {
            *desk.field(number, job::TIMEOUT) = timeout;
            *desk.field(number, job::KEY) = 3;
        }
        let before = desk.picture.clone();
        desk.tick();
        desk.changed_only(&before, &[(21, 0), (29, 1), (37, 32_766)]);
        desk.tick();
        desk.changed_only(&before, &[(21, 0), (29, 0), (37, 32_765)]);
    }

    #[test]
    fn the_bound_on_waiting_is_tight() {
        // One job at p beside 31 at 127: at the most 1 + floor(3810 / p) picks in a row go to others, and so many do.
        for p in [1, 2, 3, 30, 127] {
            let mut picture = crate::fresh::fresh_picture(1_536, 128);
            for _ in 1..POSITIONS {
                crate::manager::call(1, &mut [0x1, NOBODY, 0, 4, 0, 0, 0, 0], b"", &mut picture);
            }
            for k in 0..POSITIONS {
                picture[job_record(k) + job::PRIORITY] = if k == 31 { p } else { GREATEST_PRIORITY };
            }
            let bound = 2 + 3_810 / p;
            let mut waited = 0;
            let mut longest = 0;
            for _ in 0..20_000 {
                if position(pick(&mut picture).number) == 31 {
                    waited = 0;
                } else {
                    waited += 1;
                    longest = longest.max(waited);
                }
            }
            assert_eq!(longest, bound - 1, "p {p}");
        }
    }
}
