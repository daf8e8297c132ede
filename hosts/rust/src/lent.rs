//! The manager's functions over lent slices, of any length and contents: the archive's own, made safe. Each returns its key.

mod archive {
    unsafe extern "C" {
        pub fn krowjyvan_fresh(picture: *mut u32, length: usize, n: u32, h: u32) -> i32;
        pub fn krowjyvan_call(
            picture: *mut u32,
            length: usize,
            trap: u32,
            registers: *mut u32,
            register_count: usize,
            name: *const u8,
            name_length: usize,
        ) -> i32;
        pub fn krowjyvan_pick(picture: *mut u32, length: usize, number: *mut u32) -> i32;
        pub fn krowjyvan_tick(picture: *mut u32, length: usize) -> i32;
        pub fn krowjyvan_report_tree(
            picture: *const u32,
            length: usize,
            top: u32,
            table: *mut u32,
            table_length: usize,
            count: *mut usize,
        ) -> i32;
        pub fn krowjyvan_error_text(
            key: i32,
            system: *const u8,
            system_length: usize,
            driver: *const u8,
            driver_length: usize,
            start: *mut usize,
            count: *mut usize,
        ) -> i32;
    }
}

// Each call below lends slices with their own lengths, and nothing of them is kept. One that is written is a `&mut`, which
// overlaps nothing else and is lent to nobody else; a picture that is only read may be lent to several reports at once. That is
// all that the archive asks (krowjyvan.h, "What you must see to").

/// Makes the slice, whose length is to be `n`, a fresh picture of `n` longwords, `h` of them the heap.
pub fn fresh(picture: &mut [u32], n: u32, h: u32) -> i32 {
    // SAFETY: as said above.
    unsafe { archive::krowjyvan_fresh(picture.as_mut_ptr(), picture.len(), n, h) }
}

/// A call: a trap, its registers, which are to be 8, and for IO.OPEN a name.
pub fn call(picture: &mut [u32], trap: u32, registers: &mut [u32], name: &[u8]) -> i32 {
    // SAFETY: as said above.
    unsafe {
        archive::krowjyvan_call(
            picture.as_mut_ptr(),
            picture.len(),
            trap,
            registers.as_mut_ptr(),
            registers.len(),
            name.as_ptr(),
            name.len(),
        )
    }
}

/// A pick: the number of the job that has the turn, and the key that is delivered to it. Where no job is ready the number
/// is [`crate::constants::NOBODY`] and the key 0; where the picture isn't sound, that number and -16.
pub fn pick(picture: &mut [u32]) -> (u32, i32) {
    let mut number = 0;
    // SAFETY: as said above; `number` is this function's own.
    let key = unsafe { archive::krowjyvan_pick(picture.as_mut_ptr(), picture.len(), &mut number) };
    (number, key)
}

/// A frame passes.
pub fn tick(picture: &mut [u32]) -> i32 {
    // SAFETY: as said above.
    unsafe { archive::krowjyvan_tick(picture.as_mut_ptr(), picture.len()) }
}

/// The key of a report of the tree of the job `top`, and how many lines of the table were written, 0 with a refusal. A line
/// is [`crate::constants::LINE_LONGWORDS`] longwords; what stands behind the written ones stays.
pub fn report_tree(picture: &[u32], top: u32, table: &mut [u32]) -> (i32, usize) {
    let mut count = 0;
    // SAFETY: as said above; `count` is this function's own.
    let key = unsafe {
        archive::krowjyvan_report_tree(
            picture.as_ptr(),
            picture.len(),
            top,
            table.as_mut_ptr(),
            table.len(),
            &mut count,
        )
    };
    (key, count)
}

/// The key of an error's text, and the text: a part of the driver's where the key asked about is positive, else of the
/// system's; the empty part at the start of the system's where there is none.
pub fn error_text<'a>(key: i32, system: &'a [u8], driver: &'a [u8]) -> (i32, &'a [u8]) {
    let (mut start, mut count) = (0, 0);
    // SAFETY: as said above; `start` and `count` are this function's own. The texts are only read, and may overlap.
    let answer = unsafe {
        archive::krowjyvan_error_text(
            key,
            system.as_ptr(),
            system.len(),
            driver.as_ptr(),
            driver.len(),
            &mut start,
            &mut count,
        )
    };
    let text = if answer == crate::constants::DONE && key > 0 { driver } else { system };
    (answer, &text[start..start + count])
}
