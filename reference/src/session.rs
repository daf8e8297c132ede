//! The session program: one frame a line in, its answer out: one line, but a report has one for each member.

use std::io::{self, Read, Write};

use crate::hexadecimal::{self, write_job_lines, write_longword};
use crate::keys::{BAD_PARAMETER, DONE};
use crate::lines::answer_lines;
use crate::manager::{Manager, Ordinary};
use crate::picture::POSITIONS;
use crate::registers::Registers;
use crate::report::JobLine;

/// The picture of a session starts fresh with this N and H.
pub const LENGTH: usize = 1_024;
pub const HEAP_LENGTH: usize = 256;
/// The most characters of a line.
pub const LONGEST_LINE: usize = 512;

const PICK: u8 = 0xF0;
const TICK: u8 = 0xF1;
const REPORT: u8 = 0xF2;
/// The trap that takes a name.
const OPEN_TRAP: u8 = 2;

/// Digits of a number.
const NUMBER_DIGITS: usize = 8;
/// Digits of a trap line before the name: the trap number and eight registers.
const TRAP_DIGITS: usize = 2 + 8 * NUMBER_DIGITS;
/// The most bytes of a name.
const LONGEST_NAME: usize = (LONGEST_LINE - TRAP_DIGITS) / 2;

/// What a line means.
#[derive(Clone, Copy, PartialEq, Eq, Debug)]
pub enum Frame<'a> {
    Trap { trap: u8, registers: Registers, name: &'a [u8] },
    Pick,
    Tick,
    Report { top: u32 },
    Bad,
}

/// Reads a line, with room lent for a name's bytes.
pub fn read_line<'a>(line: &[u8], name: &'a mut [u8; LONGEST_NAME]) -> Frame<'a> {
    read(line, name).unwrap_or(Frame::Bad)
}

fn read<'a>(line: &[u8], name: &'a mut [u8; LONGEST_NAME]) -> Option<Frame<'a>> {
    if line.len() > LONGEST_LINE || !line.len().is_multiple_of(2) {
        return None;
    }
    let (&trap, behind) = line.split_first_chunk()?;
    let trap = hexadecimal::byte(trap)?;
    match trap {
        PICK if behind.is_empty() => return Some(Frame::Pick),
        TICK if behind.is_empty() => return Some(Frame::Tick),
        REPORT if behind.len() == NUMBER_DIGITS => return Some(Frame::Report { top: hexadecimal::number(behind)? }),
        PICK | TICK | REPORT => return None,
        _ => {}
    }
    if line.len() < TRAP_DIGITS || line.len() > TRAP_DIGITS && trap != OPEN_TRAP {
        return None;
    }
    let (digits, behind) = behind.split_at(TRAP_DIGITS - 2);
    let mut registers = [0; 8];
    for (register, digits) in registers.iter_mut().zip(digits.chunks_exact(NUMBER_DIGITS)) {
        *register = hexadecimal::number(digits)?;
    }
    let (pairs, _) = behind.as_chunks::<2>();
    for (byte, &pair) in name.iter_mut().zip(pairs) {
        *byte = hexadecimal::byte(pair)?;
    }
    Some(Frame::Trap { trap, registers, name: &name[..pairs.len()] })
}

/// Answers one line on the picture, with its line feed; none is a line over the limit.
pub fn answer_line(line: Option<&[u8]>, picture: &mut [u32], out: &mut Vec<u8>) {
    answer_line_on::<Ordinary>(line, picture, out);
}

/// The same on any manager.
fn answer_line_on<M: Manager>(line: Option<&[u8]>, picture: &mut [u32], out: &mut Vec<u8>) {
    let mut name = [0; LONGEST_NAME];
    match line.map_or(Frame::Bad, |line| read_line(line, &mut name)) {
        Frame::Trap { trap, mut registers, name } => {
            M::call(u32::from(trap), &mut registers, name, picture);
            for register in registers {
                write_longword(register, out);
            }
        }
        Frame::Pick => {
            let picked = M::pick(picture);
            write_longword(picked.number, out);
            write_longword(picked.key as u32, out);
        }
        Frame::Tick => write_longword(M::tick(picture) as u32, out),
        Frame::Report { top } => {
            let mut table = [JobLine::default(); POSITIONS];
            let reported = M::report(top, &mut table, picture);
            if reported.key == DONE {
                write_job_lines(&table[..reported.count], b'\n', out);
            } else {
                write_longword(reported.key as u32, out);
            }
        }
        Frame::Bad => write_longword(BAD_PARAMETER as u32, out),
    }
    out.push(b'\n');
}

/// The fresh picture that a session starts with.
pub fn fresh_picture() -> [u32; LENGTH] {
    let mut picture = [0; LENGTH];
    Ordinary::fresh(LENGTH as u32, HEAP_LENGTH as u32, &mut picture);
    picture
}

/// Runs a session from its first line to the end of input.
pub fn run(input: &mut impl Read, output: &mut impl Write) -> io::Result<()> {
    let mut picture = fresh_picture();
    answer_lines(input, output, LONGEST_LINE, |line, out| answer_line(line, &mut picture, out))
}

/// Runs a session on any manager.
pub fn run_on<M: Manager>(input: &mut impl Read, output: &mut impl Write) -> io::Result<()> {
    let mut picture = [0; LENGTH];
    M::fresh(LENGTH as u32, HEAP_LENGTH as u32, &mut picture);
    answer_lines(input, output, LONGEST_LINE, |line, out| answer_line_on::<M>(line, &mut picture, out))
}

#[cfg(test)]
mod tests {
    use super::*;
    use crate::manager::fresh;

    fn answers(input: &[u8]) -> String {
        let mut output = Vec::new();
        run(&mut &input[..], &mut output).unwrap();
        String::from_utf8(output).unwrap()
    }

    /// A trap's line.
    fn line(trap: u8, registers: [u32; 8], name: &[u8]) -> String {
        let registers: String = registers.iter().map(|register| format!("{register:08X}")).collect();
        let name: String = name.iter().map(|byte| format!("{byte:02X}")).collect();
        format!("{trap:02X}{registers}{name}\n")
    }

    fn registers(registers: [u32; 8]) -> String {
        registers.iter().map(|register| format!("{register:08X}")).collect::<String>() + "\n"
    }

    const BAD: &str = "FFFFFFF1\n";

    #[test]
    fn the_whole_case() {
        let input = b"010000001800000064000000000000000000000000000000000000000000000000\nF0\n";
        let output = "0000000000000070000000000000000000000630000000000000000000000000\n0000000000000000\n";
        assert_eq!(answers(input), output);
        assert_eq!(answers(&input[..input.len() - 1]), output);
        assert_eq!(answers(&input.to_ascii_lowercase()), output);
    }

    #[test]
    fn a_job_is_created_again_at_its_position_with_the_next_tag() {
        let create = line(1, [0x1, 0, 60, 40, 0, 0x1234, 6, 7], b"");
        let end = line(1, [0x5, 0x0001_0001, 0, 0, 0, 0, 0, 0], b"");
        let input = [&create, &end, "F0\n", &create, &end, "F1\n"].concat();
        let output = [
            registers([0, 0x0001_0001, 60, 40, 2_608, 0x1234, 6, 7]),
            registers([0; 8]),
            "0000000000000000\n".into(),
            registers([0, 0x0002_0001, 60, 40, 2_608, 0x1234, 6, 7]),
            registers([0xFFFF_FFFE, 0x0001_0001, 0, 0, 0, 0, 0, 0]),
            "00000000\n".into(),
        ]
        .concat();
        assert_eq!(answers(input.as_bytes()), output);
    }

    #[test]
    fn nobody_current_answers_minus_2_until_a_pick() {
        let suspend = line(1, [0x8, 0xFFFF_FFFF, 0, 2, 0, 0, 0, 0], b"");
        let ask = line(1, [0; 8], b"");
        let input = [&suspend, &ask, "F0\n", "F1\n", "F0\n", "F1\n", "F0\n", &ask].concat();
        let output = [
            registers([0, 0, 0, 2, 32, 0, 0, 0]),
            registers([0xFFFF_FFFE, 0, 0, 0, 0, 0, 0, 0]),
            "FFFFFFFF00000000\n".into(),
            "00000000\n".into(),
            "FFFFFFFF00000000\n".into(),
            "00000000\n".into(),
            "0000000000000000\n".into(),
            registers([0, 0, 0x312E_3030, 0, 0, 0, 0, 0]),
        ]
        .concat();
        assert_eq!(answers(input.as_bytes()), output);
    }

    #[test]
    fn bad_lines_of_each_kind() {
        let good = line(1, [0; 8], b"").trim_end().to_string();
        let named = line(2, [0x1, 0, 0, 0, 0, 0, 0, 0], b"PIPE_5").trim_end().to_string();
        let bad = [
            String::new(),
            "0".into(),
            "F".into(),
            "F00".into(),
            "F000".into(),
            "F1F1".into(),
            format!("F0{}", &good[2..]),
            format!("F1{}", &good[2..]),
            "01".into(),
            good[..65].into(),
            good[..64].into(),
            format!("{good}0"),
            format!("{good}00"),
            format!("03{}00", &good[2..]),
            format!("04{}00", &good[2..]),
            format!("{good}\r"),
            format!(" {good}"),
            format!("{}G", &good[..65]),
            format!("{}-", &good[..65]),
            format!("G{}", &good[1..]),
            format!("{named}5"),
            format!("{named}5x"),
            format!("{named}  "),
            format!("{named}{}", "00".repeat(250)),
            "0".repeat(513),
            "0".repeat(514),
            "0".repeat(100_000),
            "F2".into(),
            "f2".into(),
            "F200".into(),
            "F2000000".into(),
            "F20000000".into(),
            "F2000000000".into(),
            "F20000000000".into(),
            "F200000000F0".into(),
            "F20000000000000000".into(),
            "F20000000G".into(),
            "F2G0000000".into(),
            "F2 0000000".into(),
            "F2-0000001".into(),
            "F200000000\r".into(),
            " F200000000".into(),
            format!("F2{}", &good[2..]),
            format!("f2{}", &good[2..]),
            format!("F2{}", &named[2..]),
            format!("F2{}", "0".repeat(510)),
            "\u{e9}\u{e9}".into(),
        ];
        for line in &bad {
            let after = "010000000000000000000000000000000000000000000000000000000000000000";
            let known = registers([0, 0, 0x312E_3030, 0, 0, 0, 0, 0]);
            assert_eq!(answers(format!("{line}\n{after}").as_bytes()), format!("{BAD}{known}"), "{line}");
            if !line.is_empty() {
                assert_eq!(answers(line.as_bytes()), BAD, "{line}");
            }
        }
        assert_eq!(answers(b""), "");
        assert_eq!(answers(b"\n\n"), format!("{BAD}{BAD}"));
    }

    #[test]
    fn bad_lines_change_nothing_whoever_is_current() {
        let mut picture = fresh_picture();
        picture[crate::picture::CURRENT] = crate::picture::NOBODY;
        let before = picture;
        let mut out = Vec::new();
        for bad in [None, Some(&b""[..]), Some(b"01"), Some(b"F0 ")] {
            answer_line(bad, &mut picture, &mut out);
        }
        assert_eq!(out, BAD.repeat(4).as_bytes());
        assert_eq!(picture, before);
    }

    #[test]
    fn a_line_of_512_characters_is_good() {
        let mut name = b"PIPE_5".to_vec();
        name.resize(223, b'x');
        let longest = line(2, [0x1, 0, 0, 0, 0, 0, 0, 0], &name);
        assert_eq!(longest.len(), 513);
        assert_eq!(answers(longest.as_bytes()), registers([0xFFFF_FFF4, 0, 0, 0, 0, 0, 0, 0]));
        assert_eq!(answers(&longest.as_bytes()[..512]), registers([0xFFFF_FFF4, 0, 0, 0, 0, 0, 0, 0]));
        name.push(b'x');
        assert_eq!(answers(line(2, [0x1, 0, 0, 0, 0, 0, 0, 0], &name).as_bytes()), BAD);
    }

    #[test]
    fn other_trap_numbers_with_66_digits_answer_registers() {
        for trap in [0x00, 0x04, 0x7F, 0xEF, 0xF3, 0xFE, 0xFF] {
            let expected = registers([0xFFFF_FFF1, 1, 2, 3, 4, 5, 6, 7]);
            assert_eq!(answers(line(trap, [0, 1, 2, 3, 4, 5, 6, 7], b"").as_bytes()), expected);
        }
    }

    #[test]
    fn a_report_gives_a_line_for_each_member_or_the_key() {
        let create = |owner: u32| line(1, [0x1, owner, 0, 4, 0, 0, 0, 0], b"");
        let created = |number: u32, room: u32| registers([0, number, 0, 4, room, 0, 0, 0]);
        let input = [&create(0), &create(0xFFFF_FFFF), "F200000000\n", "f20001000A\nF200010001\nF200020002\n"].concat();
        let output = [
            &created(0x0001_0001, 2_608),
            &created(0x0002_0002, 2_640),
            "00000000FFFFFFFF000000000000002000000000\n",
            "0001000100000000000000010000000000000000\n",
            "FFFFFFFE\n",
            "0001000100000000000000000000000000000000\n",
            "00020002FFFFFFFF000000000000000000000000\n",
        ]
        .concat();
        assert_eq!(answers(input.as_bytes()), output);
        assert_eq!(answers(b"f200000000"), "00000000FFFFFFFF000000000000002000000000\n");
        for dead in ["0000FFFF", "00008000", "FFFFFFFF", "ffffffff", "00010000", "00000001", "00000020"] {
            assert_eq!(answers(format!("F2{dead}\n").as_bytes()), "FFFFFFFE\n");
        }
        // Nobody need be current, and who is suspended is told.
        let suspend = line(1, [0x8, 0, 0, 5, 0, 0, 0, 0], b"");
        let known = [&registers([0, 0, 0, 5, 32, 0, 0, 0]), "00000000FFFFFFFF000000000000002000000001\n"].concat();
        assert_eq!(answers(format!("{suspend}F200000000").as_bytes()), known);
    }

    #[test]
    fn a_report_has_a_line_for_every_position() {
        let create = line(1, [0x1, 0, 0, 4, 0, 0, 0, 0], b"");
        let answer = answers(format!("{}F200000000\n", create.repeat(POSITIONS - 1)).as_bytes());
        let lines: Vec<&str> = answer.lines().skip(POSITIONS - 1).collect();
        assert_eq!(lines.len(), POSITIONS);
        assert_eq!(lines[31], "001F001F00000000000000010000000000000000");
    }

    #[test]
    fn a_report_changes_nothing() {
        let mut picture = fresh_picture();
        let before = picture;
        let mut out = Vec::new();
        answer_line(Some(b"F200000000"), &mut picture, &mut out);
        answer_line(Some(b"F200000001"), &mut picture, &mut out);
        assert_eq!(picture, before);
        // A picture that isn't sound is no session's, but a report on it gives its key.
        out.clear();
        picture[crate::picture::SPARE] = 1;
        answer_line(Some(b"F200000000"), &mut picture, &mut out);
        assert_eq!(out, b"FFFFFFF0\n");
    }

    #[test]
    fn the_desk_bench_over_lines() {
        let take = |bytes: u32| line(1, [0x18, bytes, 0, 0, 0, 0, 0, 0], b"");
        let taken = |bytes: u32, room: u32| registers([0, bytes, 0, 0, room, 0, 0, 0]);
        let refused = |bytes: u32| registers([0xFFFF_FFFD, bytes, 0, 0, 0, 0, 0, 0]);
        let input = [take(100), take(1), take(849), take(848), take(1)].concat();
        let output = [taken(112, 1_584), taken(16, 1_712), refused(849), taken(848, 1_744), refused(1)].concat();
        assert_eq!(answers(input.as_bytes()), output);

        let free = line(1, [0x6, 1, 2, 3, 4, 5, 6, 7], b"");
        assert_eq!(answers(free.as_bytes()), registers([0, 1_488, 0, 0, 0, 0, 0, 0]));
        let create = |code: u32, data: u32| line(1, [0x1, 0, code, data, 0, 0, 0, 0], b"");
        let input = [create(1_429, 60), create(1_428, 3), create(1_428, 60)].concat();
        let output = [
            registers([0xFFFF_FFFD, 0, 1_429, 60, 0, 0, 0, 0]),
            registers([0xFFFF_FFF1, 0, 1_428, 3, 0, 0, 0, 0]),
            registers([0, 0x0001_0001, 1_428, 60, 2_608, 0, 0, 0]),
        ]
        .concat();
        assert_eq!(answers(input.as_bytes()), output);

        let priority = |d2: u32| line(1, [0xB, 0, d2, 0, 0, 0, 0, 0], b"");
        assert_eq!(answers(priority(127).as_bytes()), registers([0, 0, 127, 0, 32, 0, 0, 0]));
        assert_eq!(answers(priority(128).as_bytes()), registers([0xFFFF_FFF1, 0, 128, 0, 0, 0, 0, 0]));

        let open = |name: &[u8]| line(2, [0x1, 0, 0, 0, 0, 0, 0, 0], name);
        assert_eq!(answers(open(b"PIPE_32766").as_bytes()), registers([0xFFFF_FFFD, 0, 0, 0, 0, 0, 0, 0]));
        assert_eq!(answers(open(b"PIPE_32767").as_bytes()), registers([0xFFFF_FFF4, 0, 0, 0, 0, 0, 0, 0]));
    }

    #[test]
    fn the_picture_starts_fresh() {
        let mut picture = [1; LENGTH];
        assert_eq!(fresh(1_024, 256, &mut picture), 0);
        assert_eq!(fresh_picture(), picture);
    }
}
