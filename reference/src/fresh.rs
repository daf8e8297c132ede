//! A fresh picture.

use crate::blocks;
use crate::keys::{Key, DONE, OUT_OF_RANGE};
use crate::picture::*;

/// The priority of job 0 in a fresh picture.
pub const FIRST_PRIORITY: u32 = 32;

/// Whether N is 1,024 to 16,384 and a multiple of 4.
pub fn length_is_good(length: usize) -> bool {
    (LEAST_LENGTH..=GREATEST_LENGTH).contains(&length) && length.is_multiple_of(STEP)
}

/// Whether H is a multiple of 4, at least 4, and leaves the transient area at least 4, of N longwords.
pub fn heap_length_is_good(length: usize, heap_length: usize) -> bool {
    heap_length.is_multiple_of(STEP) && heap_length >= STEP && heap_length <= length - HEAP - STEP
}

/// Makes the lent memory a fresh picture, or answers -4 and writes nothing.
pub fn fresh(length: u32, heap_length: u32, picture: &mut [u32]) -> Key {
    let (n, h) = (length as usize, heap_length as usize);
    if !length_is_good(n) || !heap_length_is_good(n, h) || picture.len() != n {
        return OUT_OF_RANGE;
    }
    write(h, picture);
    DONE
}

/// Writes a fresh picture with a heap of this many longwords over lent memory that has room for it.
pub(crate) fn write(heap_length: usize, picture: &mut [u32]) {
    picture.fill(0);
    picture[LENGTH] = picture.len() as u32;
    picture[HEAP_LENGTH] = heap_length as u32;
    picture[JOB_MASK] = 1;
    picture[job_record(0) + job::OWNER] = NOBODY;
    picture[job_record(0) + job::PRIORITY] = FIRST_PRIORITY;
    for area in [blocks::heap(picture), blocks::transient(picture)] {
        if !area.is_empty() {
            picture[area.start + block::LENGTH] = 4 * area.len() as u32;
        }
    }
}

/// A fresh picture of sizes that are known to be good.
pub fn fresh_picture(length: u32, heap_length: u32) -> Vec<u32> {
    let mut picture = vec![0; length as usize];
    assert_eq!(fresh(length, heap_length, &mut picture), DONE, "N {length} and H {heap_length} must be good sizes");
    picture
}

#[cfg(test)]
mod tests {
    use super::*;
    use crate::sound::is_sound;

    #[test]
    fn every_longword_of_a_fresh_picture_is_as_the_paper_says() {
        let mut picture = vec![0xA5A5_A5A5; 1_024];
        assert_eq!(fresh(1_024, 256, &mut picture), DONE);
        for (index, &longword) in picture.iter().enumerate() {
            let expected = match index {
                0 => 1_024,
                4 => 256,
                5 => 1,
                9 => NOBODY,
                11 => 32,
                392 => 1_024,
                648 => (1_024 - 648) * 4,
                _ => 0,
            };
            assert_eq!(longword, expected, "longword {index}");
        }
    }

    #[test]
    fn bad_sizes_answer_minus_4_and_write_nothing() {
        let bad = [
            (1_020, 256, 1_020),
            (1_023, 256, 1_023),
            (1_026, 256, 1_026),
            (16_388, 256, 16_388),
            (0, 0, 0),
            (0xFFFF_FFFC, 256, 1_024),
            (1_024, 0, 1_024),
            (1_024, 2, 1_024),
            (1_024, 255, 1_024),
            (1_024, 632, 1_024),
            (1_024, 636, 1_024),
            (1_024, 0xFFFF_FFFC, 1_024),
            (1_024, 256, 1_020),
            (1_024, 256, 1_028),
            (1_024, 256, 0),
        ];
        for (n, h, lent) in bad {
            let mut picture = vec![0x5555_5555; lent];
            assert_eq!(fresh(n, h, &mut picture), OUT_OF_RANGE, "N {n} H {h} lent {lent}");
            assert!(picture.iter().all(|&longword| longword == 0x5555_5555));
        }
    }

    #[test]
    fn good_sizes_give_a_sound_picture() {
        for (n, h) in
            [(1_024, 4), (1_024, 628), (1_024, 256), (1_028, 4), (16_384, 4), (16_384, 15_988), (16_384, 8_192)]
        {
            assert!(is_sound(&fresh_picture(n, h)), "N {n} H {h}");
        }
    }
}
