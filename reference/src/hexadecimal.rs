//! Hexadecimal digits: read in either case, written as capitals.

use crate::report::JobLine;

/// What a character that isn't a hexadecimal digit is worth.
const NO_DIGIT: u8 = 0xFF;

/// The worth of each character as a digit.
static WORTH: [u8; 256] = {
    let mut worth = [NO_DIGIT; 256];
    let mut digit = 0;
    while digit < 16 {
        worth[b"0123456789ABCDEF"[digit] as usize] = digit as u8;
        worth[b"0123456789abcdef"[digit] as usize] = digit as u8;
        digit += 1;
    }
    worth
};

/// Whether the character is a hexadecimal digit.
pub fn is_digit(character: u8) -> bool {
    WORTH[usize::from(character)] != NO_DIGIT
}

/// The number that up to eight digits hold, or none where a character isn't one.
pub fn number(digits: &[u8]) -> Option<u32> {
    let mut number = 0;
    let mut bad = 0;
    for &digit in digits {
        let worth = WORTH[usize::from(digit)];
        bad |= worth & 0xF0;
        number = number << 4 | u32::from(worth & 0xF);
    }
    (bad == 0).then_some(number)
}

/// The byte that two digits hold.
pub fn byte(digits: [u8; 2]) -> Option<u8> {
    number(&digits).map(|number| number as u8)
}

const CAPITALS: [u8; 16] = *b"0123456789ABCDEF";

/// Writes a longword as eight capitals.
pub fn write_longword(longword: u32, out: &mut Vec<u8>) {
    let mut digits = [0; 8];
    for (k, digit) in digits.iter_mut().enumerate() {
        *digit = CAPITALS[(longword >> (28 - 4 * k) & 0xF) as usize];
    }
    out.extend_from_slice(&digits);
}

/// Writes a word as four capitals.
pub fn write_word(word: u16, out: &mut Vec<u8>) {
    write_byte((word >> 8) as u8, out);
    write_byte(word as u8, out);
}

/// Writes a byte as two capitals.
pub fn write_byte(byte: u8, out: &mut Vec<u8>) {
    out.extend_from_slice(&[CAPITALS[usize::from(byte >> 4)], CAPITALS[usize::from(byte & 0xF)]]);
}

/// Writes job lines with a character between them, each as its five fields run together, suspended as 1 or 0.
pub fn write_job_lines(lines: &[JobLine], between: u8, out: &mut Vec<u8>) {
    for (k, line) in lines.iter().enumerate() {
        if k > 0 {
            out.push(between);
        }
        for field in [line.number, line.owner, line.depth, line.priority, u32::from(line.suspended)] {
            write_longword(field, out);
        }
    }
}

#[cfg(test)]
mod tests {
    use super::*;

    #[test]
    fn digits_are_read_in_either_case_and_written_as_capitals() {
        assert_eq!(number(b"dEaDbEeF"), Some(0xDEAD_BEEF));
        assert_eq!(number(b"0g"), None);
        assert_eq!(byte(*b"7f"), Some(0x7F));
        let accepted: Vec<u8> = (0..=255).filter(|&c| is_digit(c)).collect();
        assert_eq!(accepted, b"0123456789ABCDEFabcdef");
        let mut out = Vec::new();
        write_longword(0x0123_ABCD, &mut out);
        write_word(0xF00D, &mut out);
        write_byte(0x0E, &mut out);
        assert_eq!(out, b"0123ABCDF00D0E");
    }

    #[test]
    fn job_lines_are_five_fields_run_together() {
        let one = JobLine { number: 0x0003_0001, owner: 0xFFFF_FFFF, depth: 0, priority: 127, suspended: true };
        let other = JobLine { number: 0x0005_001F, owner: 0x0003_0001, depth: 31, priority: 0, suspended: false };
        let mut out = Vec::new();
        write_job_lines(&[], b',', &mut out);
        assert_eq!(out, b"");
        write_job_lines(&[one, other], b',', &mut out);
        let (first, second) = ("00030001FFFFFFFF000000000000007F00000001", "0005001F000300010000001F0000000000000000");
        assert_eq!(String::from_utf8(out).unwrap(), format!("{first},{second}"));
    }
}
