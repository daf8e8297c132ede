//! Trials: one call on any picture and registers, or one report of a tree, a line; what came of it a line.

use std::io::{self, Read, Write};

use crate::hexadecimal::{self, write_byte, write_job_lines, write_longword, write_word};
use crate::keys::Key;
use crate::lines::answer_lines;
use crate::manager::{Manager, Ordinary};
use crate::report::JobLine;

/// The most characters of a trial's line.
pub const LONGEST_LINE: usize = 300_000;
/// The most registers, and the most bytes of a name.
pub const MOST_REGISTERS: usize = 16;
pub const LONGEST_NAME: usize = 1_000;
/// The most longwords of a picture, some more than the greatest N, and the most that one run says.
pub const LONGEST_PICTURE: usize = 16_400;
pub const LONGEST_RUN: usize = 0x4000;
/// The most job lines that are lent to a report, and what each holds before it.
pub const MOST_LINES: usize = 64;
pub const LENT_LINE: JobLine =
    JobLine { number: 0xAAAA_AAAA, owner: 0xAAAA_AAAA, depth: 0xAAAA_AAAA, priority: 0xAAAA_AAAA, suspended: true };

/// The calls that aren't traps; trap numbers lie below the first of them.
pub const PICK: u8 = 0xF0;
pub const TICK: u8 = 0xF1;
pub const REPORT: u8 = 0xF2;
pub const ERROR_TEXT: u8 = 0xFE;
pub const FRESH: u8 = 0xFF;

/// A call over registers and a picture. Name, registers and picture stand on the bench.
#[derive(Clone, Copy)]
enum Asked {
    Trap(u8),
    Pick,
    Tick,
    Fresh { length: u32, heap_length: u32 },
}

/// What a trial asks: a call, the report of a tree, or the text of an error.
#[derive(Clone, Copy)]
enum Trial {
    Call(Asked),
    Report,
    ErrorText(Key),
}

/// What a trial is laid out on, kept from line to line.
#[derive(Default)]
pub struct Bench {
    name: Vec<u8>,
    registers: Vec<u32>,
    lent: Vec<u32>,
    picture: Vec<u32>,
    table: Vec<JobLine>,
    system: Vec<u8>,
    driver: Vec<u8>,
}

impl Bench {
    /// Answers one line with its line feed; none is a line over the limit. A line that isn't a trial gives `?`.
    pub fn answer_line<M: Manager>(&mut self, line: Option<&[u8]>, out: &mut Vec<u8>) {
        match line.and_then(|line| self.read(line)) {
            None => out.push(b'?'),
            Some(Trial::ErrorText(key)) => self.answer_error_text::<M>(key, out),
            Some(Trial::Report) => self.answer_report::<M>(out),
            Some(Trial::Call(asked)) => self.answer_call::<M>(asked, out),
        }
        out.push(b'\n');
    }

    /// Lays out the trial that the line holds.
    fn read(&mut self, line: &[u8]) -> Option<Trial> {
        let mut fields = line.split(|&character| character == b' ');
        let (call, second, third) = (fields.next()?, fields.next()?, fields.next()?);
        if fields.next().is_some() || line.len() > LONGEST_LINE {
            return None;
        }
        let trial = self.read_call(call)?;
        match trial {
            Trial::ErrorText(_) => {
                read_bytes(second, &mut self.system)?;
                read_bytes(third, &mut self.driver)?;
            }
            Trial::Call(_) => self.read_lent(second, third)?,
            Trial::Report => {
                self.read_lent(second, third)?;
                self.lend_table()?;
            }
        }
        Some(trial)
    }

    /// Reads the registers and the picture that are lent.
    fn read_lent(&mut self, registers: &[u8], picture: &[u8]) -> Option<()> {
        read_longwords(registers, MOST_REGISTERS, false, &mut self.registers)?;
        read_longwords(picture, LONGEST_PICTURE, true, &mut self.lent)
    }

    /// Lends a report's table: its registers are two, the top and how many lines are lent.
    fn lend_table(&mut self) -> Option<()> {
        let [_, lines] = *self.registers else { return None };
        self.table.clear();
        self.table.resize(lines.min(MOST_LINES as u32) as usize, LENT_LINE);
        (lines as usize <= MOST_LINES).then_some(())
    }

    fn read_call(&mut self, field: &[u8]) -> Option<Trial> {
        let (&call, behind) = field.split_first_chunk()?;
        let asked = match hexadecimal::byte(call)? {
            PICK if behind.is_empty() => Asked::Pick,
            TICK if behind.is_empty() => Asked::Tick,
            REPORT if behind.is_empty() => return Some(Trial::Report),
            ERROR_TEXT if behind.len() == 8 => return Some(Trial::ErrorText(hexadecimal::number(behind)? as Key)),
            FRESH if behind.len() == 16 => {
                let (length, heap_length) = behind.split_at(8);
                Asked::Fresh { length: hexadecimal::number(length)?, heap_length: hexadecimal::number(heap_length)? }
            }
            trap if trap < PICK && behind.len() <= 2 * LONGEST_NAME => {
                read_pairs(behind, &mut self.name)?;
                Asked::Trap(trap)
            }
            _ => return None,
        };
        Some(Trial::Call(asked))
    }

    fn answer_error_text<M: Manager>(&self, key: Key, out: &mut Vec<u8>) {
        let (key, part) = M::error_text(key, &self.system, &self.driver);
        write_longword(key as u32, out);
        out.push(b' ');
        if part.is_empty() {
            out.push(b'-');
        }
        for &byte in part {
            write_byte(byte, out);
        }
    }

    fn answer_report<M: Manager>(&mut self, out: &mut Vec<u8>) {
        let reported = M::report(self.registers[0], &mut self.table, &self.lent);
        write_longword(reported.key as u32, out);
        out.push(b' ');
        write_longword(reported.count as u32, out);
        out.push(b' ');
        if self.table.is_empty() {
            out.push(b'-');
        }
        write_job_lines(&self.table, b',', out);
    }

    fn answer_call<M: Manager>(&mut self, asked: Asked, out: &mut Vec<u8>) {
        self.picture.clone_from(&self.lent);
        let (registers, picture) = (&mut self.registers, &mut self.picture);
        let (key, number) = match asked {
            Asked::Trap(trap) => (M::call(u32::from(trap), registers, &self.name, picture), None),
            Asked::Pick => {
                let picked = M::pick(picture);
                (picked.key, Some(picked.number))
            }
            Asked::Tick => (M::tick(picture), None),
            Asked::Fresh { length, heap_length } => (M::fresh(length, heap_length, picture), None),
        };
        write_longword(key as u32, out);
        out.push(b' ');
        if let Some(number) = number {
            write_longword(number, out);
            out.push(b' ');
        }
        if registers.is_empty() {
            out.push(b'-');
        }
        for &register in registers.iter() {
            write_longword(register, out);
        }
        out.push(b' ');
        let before_changes = out.len();
        for (index, (&now, &before)) in self.picture.iter().zip(&self.lent).enumerate() {
            if now != before {
                if out.len() > before_changes {
                    out.push(b',');
                }
                write_word(index as u16, out);
                out.push(b'=');
                write_longword(now, out);
            }
        }
        if out.len() == before_changes {
            out.push(b'-');
        }
    }
}

/// Reads pairs of digits, none too.
fn read_pairs(digits: &[u8], bytes: &mut Vec<u8>) -> Option<()> {
    bytes.clear();
    let (pairs, left_over) = digits.as_chunks::<2>();
    for &pair in pairs {
        bytes.push(hexadecimal::byte(pair)?);
    }
    left_over.is_empty().then_some(())
}

/// Reads a field of bytes, or `-` for none.
fn read_bytes(field: &[u8], bytes: &mut Vec<u8>) -> Option<()> {
    match field {
        b"-" => read_pairs(b"", bytes),
        b"" => None,
        digits => read_pairs(digits, bytes),
    }
}

/// Reads a field of longwords up to a count, or `-` for none; where runs are allowed, `x` and four digits behind a
/// longword say how often it stands in a row.
fn read_longwords(field: &[u8], most: usize, runs: bool, longwords: &mut Vec<u32>) -> Option<()> {
    longwords.clear();
    if field == b"-" {
        return Some(());
    }
    let mut rest = field;
    loop {
        let (digits, behind) = rest.split_at_checked(8)?;
        let longword = hexadecimal::number(digits)?;
        rest = behind;
        let mut count = 1;
        if let (true, [b'x', behind @ ..]) = (runs, rest) {
            let (digits, behind) = behind.split_at_checked(4)?;
            count = hexadecimal::number(digits)? as usize;
            rest = behind;
        }
        if count == 0 || count > LONGEST_RUN || longwords.len() + count > most {
            return None;
        }
        longwords.resize(longwords.len() + count, longword);
        if rest.is_empty() {
            return Some(());
        }
    }
}

/// Writes longwords in the shortest run form, or `-` for none.
pub fn write_runs(longwords: &[u32], out: &mut Vec<u8>) {
    if longwords.is_empty() {
        out.push(b'-');
    }
    for run in longwords.chunk_by(|one, next| one == next).flat_map(|run| run.chunks(LONGEST_RUN)) {
        write_longword(run[0], out);
        if run.len() > 1 {
            out.push(b'x');
            write_word(run.len() as u16, out);
        }
    }
}

/// Answers every trial up to the end of input.
pub fn run(input: &mut impl Read, output: &mut impl Write) -> io::Result<()> {
    run_on::<Ordinary>(input, output)
}

/// The same on any manager.
pub fn run_on<M: Manager>(input: &mut impl Read, output: &mut impl Write) -> io::Result<()> {
    let mut bench = Bench::default();
    answer_lines(input, output, LONGEST_LINE, |line, out| bench.answer_line::<M>(line, out))
}

#[cfg(test)]
mod tests {
    use super::*;
    use crate::fresh::fresh_picture;

    fn answers(input: &str) -> String {
        let mut output = Vec::new();
        run(&mut input.as_bytes(), &mut output).unwrap();
        String::from_utf8(output).unwrap()
    }

    fn answer(line: &str) -> String {
        let mut answer = answers(line);
        assert_eq!(answer.pop(), Some('\n'));
        assert!(!answer.contains('\n'));
        answer
    }

    fn runs(picture: &[u32]) -> String {
        let mut out = Vec::new();
        write_runs(picture, &mut out);
        String::from_utf8(out).unwrap()
    }

    const REGISTERS: &str = "0000001800000064000000000000000000000000000000000000000000000000";

    #[test]
    fn a_call_answers_key_registers_and_changes() {
        let fresh = runs(&fresh_picture(1_024, 256));
        let after = "0000000000000070000000000000000000000630000000000000000000000000";
        let changes = "0188=00000080,0189=00000001,01A8=00000380";
        assert_eq!(answer(&format!("01 {REGISTERS} {fresh}")), format!("00000000 {after} {changes}"));
        assert_eq!(
            answer(&format!("01ABcd {REGISTERS} {}", fresh.to_ascii_lowercase())),
            format!("00000000 {after} {changes}")
        );
        assert_eq!(answer(&format!("07 {REGISTERS} {fresh}")), format!("FFFFFFF1 FFFFFFF1{} -", &REGISTERS[8..]));
        assert_eq!(answer(&format!("07 {REGISTERS} -")), format!("FFFFFFF0 FFFFFFF0{} -", &REGISTERS[8..]));
        assert_eq!(answer(&format!("01 {} {fresh}", &REGISTERS[8..])), format!("FFFFFFF1 {} -", &REGISTERS[8..]));
        assert_eq!(answer(&format!("01 {REGISTERS}DEADBEEF {fresh}")), format!("FFFFFFF1 {REGISTERS}DEADBEEF -"));
        assert_eq!(answer("01 - -"), "FFFFFFF1 - -");
        assert_eq!(answer("EF - 12345678"), "FFFFFFF1 - -");
    }

    #[test]
    fn picks_and_ticks() {
        let mut picture = fresh_picture(1_024, 256);
        picture[crate::picture::CURRENT] = crate::picture::NOBODY;
        picture[crate::picture::job_record(0) + crate::picture::job::KEY] = 0xFFFF_FFFE;
        let fresh = runs(&picture);
        assert_eq!(answer(&format!("F0 - {fresh}")), "FFFFFFFE 00000000 - 0001=00000000,000F=00000000");
        assert_eq!(answer(&format!("f1 0000000a {fresh}")), "00000000 0000000A -");
        assert_eq!(answer("F0 - -"), "FFFFFFF0 FFFFFFFF - -");
        assert_eq!(answer("F1 - 00000000x4000"), "FFFFFFF0 - -");
    }

    #[test]
    fn fresh_over_lent_memory() {
        let changes =
            "0000=00000400,0004=00000100,0005=00000001,0009=FFFFFFFF,000B=00000020,0188=00000400,0288=000005E0";
        assert_eq!(answer("FF0000040000000100 - 00000000x0400"), format!("00000000 - {changes}"));
        let mut lent = fresh_picture(1_024, 256);
        assert_eq!(answer(&format!("FF0000040000000100 - {}", runs(&lent))), "00000000 - -");
        lent[1_023] = 5;
        assert_eq!(answer(&format!("FF0000040000000100 00000001 {}", runs(&lent))), "00000000 00000001 03FF=00000000");
        assert_eq!(answer("FF0000040000000101 - 00000000x0400"), "FFFFFFFC - -");
        assert_eq!(answer("FF0000040000000100 - 00000000x03FF"), "FFFFFFFC - -");
    }

    #[test]
    fn a_report_answers_key_count_and_the_lent_lines() {
        let kept = "AAAAAAAAAAAAAAAAAAAAAAAAAAAAAAAA00000001";
        let mut picture = fresh_picture(1_024, 256);
        let alone = runs(&picture);
        let zero = "00000000FFFFFFFF000000000000002000000000";
        assert_eq!(answer(&format!("F2 0000000000000001 {alone}")), format!("00000000 00000001 {zero}"));
        assert_eq!(answer(&format!("F2 0000000000000002 {alone}")), format!("00000000 00000001 {zero},{kept}"));
        assert_eq!(answer(&format!("F2 0000000000000000 {alone}")), "FFFFFFFB 00000000 -");
        assert_eq!(answer(&format!("F2 0000FFFF00000000 {alone}")), "FFFFFFFE 00000000 -");
        assert_eq!(answer(&format!("F2 0000FFFF00000001 {alone}")), format!("FFFFFFFE 00000000 {kept}"));
        assert_eq!(answer("F2 0000FFFF00000000 -"), "FFFFFFF0 00000000 -");
        assert_eq!(answer("F2 0000000000000002 -"), format!("FFFFFFF0 00000000 {kept},{kept}"));
        let most = answer(&format!("f2 0000000000000040 {}", alone.to_ascii_lowercase()));
        assert_eq!(most, format!("00000000 00000001 {zero}{}", format!(",{kept}").repeat(63)));
        crate::manager::call(1, &mut [0x1, 0, 0, 4, 0, 0, 0, 0], b"", &mut picture);
        let two = runs(&picture);
        let child = "0001000100000000000000010000000000000000";
        assert_eq!(answer(&format!("F2 0000000000000001 {two}")), format!("FFFFFFFB 00000000 {kept}"));
        assert_eq!(answer(&format!("F2 0000000000000002 {two}")), format!("00000000 00000002 {zero},{child}"));
        // The lines are lent anew for each trial.
        let input = format!("F2 0000000000000002 {two}\nF2 0000000000000002 -\n");
        assert_eq!(answers(&input).lines().last(), Some(&*format!("FFFFFFF0 00000000 {kept},{kept}")));
    }

    #[test]
    fn error_texts() {
        assert_eq!(answer("FEFFFFFFFF 000361624300020000 -"), "00000000 616243");
        assert_eq!(answer("FEFFFFFFFE 000361624300020000 -"), "00000000 0000");
        assert_eq!(answer("FEFFFFFFFD 000361624300020000 -"), "FFFFFFF9 -");
        assert_eq!(answer("FE00000001 - FF0001fe"), "00000000 FE");
        assert_eq!(answer("FE00000001 - FF0000"), "00000000 -");
        assert_eq!(answer("FE00000000 - -"), "FFFFFFF9 -");
    }

    #[test]
    fn lines_that_are_not_trials_give_a_question_mark() {
        let name_over = format!("01{} - -", "00".repeat(LONGEST_NAME + 1));
        let registers_over = format!("01 {} -", "00000000".repeat(17));
        let line_over = format!("FEFFFFFFFF {} -", "00".repeat(150_000));
        for line in [
            "",
            " ",
            "  ",
            "01",
            "01 -",
            "01 - ",
            "01  -",
            "01 - - ",
            " 01 - -",
            "01 - - -",
            "1 - -",
            "011 - -",
            "0G - -",
            "F2 - -",
            "F2 00000000 -",
            "F2 000000000000000100000000 -",
            "F2 0000000000000041 -",
            "F2 0000000080000000 -",
            "F2 00000000FFFFFFFF -",
            "F2 00000000x0002 -",
            "F2 0000000000000001",
            "F2 0000000000000001 - -",
            "F200 0000000000000001 -",
            "F200000000 0000000000000001 -",
            "F3 0000000000000001 -",
            "FD - -",
            "F000 - -",
            "F100 - -",
            "FF - -",
            "FF00000400 - -",
            "FF000004000000010000 - -",
            "FE - -",
            "FE0000000 - -",
            "FEFFFFFFFF 0 -",
            "FEFFFFFFFF - 000",
            "FEFFFFFFFF - 0G",
            "FEFFFFFFFF  -",
            "01 0000000 -",
            "01 000000000 -",
            "01 00000000x0001 -",
            "01 - 0000000",
            "01 - 00000000x",
            "01 - 00000000x0000",
            "01 - 00000000X0001",
            "01 - 00000000x4001",
            "01 - 00000000x4010",
            "01 - 00000000x400000000000x0011",
            "01 - x0001",
            "01 - 00000000x0001x0001",
            "01\t- -",
            "01 - -\r",
            "\u{e9} - -",
            &name_over,
            &registers_over,
            &line_over,
        ] {
            assert_eq!(answers(&format!("{line}\n")), "?\n", "{line}");
        }
        assert_eq!(answers("?\n\n01 - -"), "?\n?\nFFFFFFF1 - -\n");
        assert_eq!(answers(""), "");
    }

    #[test]
    fn the_longest_of_everything_is_a_trial() {
        assert_eq!(answer(&format!("01{} - -", "00".repeat(LONGEST_NAME))), "FFFFFFF1 - -");
        let registers = "00000000".repeat(16);
        assert_eq!(answer(&format!("01 {registers} -")), format!("FFFFFFF1 {registers} -"));
        assert_eq!(answer(&format!("01 - {}", "00000000x0001".repeat(16_400))), "FFFFFFF1 - -");
        assert_eq!(answer(&format!("01 - {}", "00000000".repeat(16_401))), "?");
        assert_eq!(answer("F1 - 00000000x400000000000x0010"), "FFFFFFF0 - -");
        assert_eq!(answer("FF0000401000000100 - 00000000x400000000000x0010"), "FFFFFFFC - -");
        let text = "00".repeat(149_993);
        assert_eq!(format!("FEFFFFFFFF {text} - ").len(), 300_000);
        assert_eq!(answer(&format!("FEFFFFFFFF {text} -")), "00000000 -");
        assert_eq!(answer(&format!("FEFFFFFFFF {text} 00")), "00000000 -");
    }

    #[test]
    fn pictures_are_written_in_the_shortest_run_form() {
        assert_eq!(runs(&[]), "-");
        assert_eq!(runs(&[1, 2, 2, 3, 3, 3, 1]), "0000000100000002x000200000003x000300000001");
        assert_eq!(runs(&vec![7; 16_384]), "00000007x4000");
        assert_eq!(runs(&vec![7; 16_385]), "00000007x400000000007");
        assert_eq!(runs(&vec![7; 16_400]), "00000007x400000000007x0010");
    }
}
