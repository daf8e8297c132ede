//! The eight lent registers and how their words and bytes are read.

pub const COUNT: usize = 8;
pub type Registers = [u32; COUNT];

pub const D0: usize = 0;
pub const D1: usize = 1;
pub const D2: usize = 2;
pub const D3: usize = 3;
pub const A0: usize = 4;
pub const A1: usize = 5;
pub const A2: usize = 6;
pub const A3: usize = 7;

/// The low word of a register as a signed half.
pub fn low_word(register: u32) -> i16 {
    register as i16
}

/// The low byte of a register.
pub fn low_byte(register: u32) -> u8 {
    register as u8
}

/// Whether the low word has bit 15 set, which means the current job where the paper says so.
pub fn means_current(register: u32) -> bool {
    low_word(register) < 0
}
