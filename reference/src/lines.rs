//! Lines of any length out of input of any size, in fixed memory.

use std::io::{self, Read, Write};

/// Bytes read at once.
const PIECE: usize = 65_536;

/// Gives each line to `answer`, or nothing for a line over the limit, and writes what it has answered.
///
/// A line ends at a line feed or the end of input; nothing after the last line feed is no line.
pub fn answer_lines(
    input: &mut impl Read,
    output: &mut impl Write,
    limit: usize,
    mut answer: impl FnMut(Option<&[u8]>, &mut Vec<u8>),
) -> io::Result<()> {
    let mut piece = vec![0; PIECE];
    let mut begun = Vec::new();
    let mut out = Vec::new();
    loop {
        let count = match input.read(&mut piece) {
            Ok(count) => count,
            Err(error) if error.kind() == io::ErrorKind::Interrupted => continue,
            Err(error) => return Err(error),
        };
        if count == 0 {
            break;
        }
        let mut rest = &piece[..count];
        while let Some(feed) = rest.iter().position(|&character| character == b'\n') {
            if begun.is_empty() {
                answer((feed <= limit).then_some(&rest[..feed]), &mut out);
            } else {
                keep(&mut begun, &rest[..feed], limit);
                answer((begun.len() <= limit).then_some(&begun), &mut out);
                begun.clear();
            }
            rest = &rest[feed + 1..];
            if out.len() >= PIECE {
                output.write_all(&out)?;
                out.clear();
            }
        }
        keep(&mut begun, rest, limit);
        output.write_all(&out)?;
        output.flush()?;
        out.clear();
    }
    if !begun.is_empty() {
        answer((begun.len() <= limit).then_some(&begun), &mut out);
        output.write_all(&out)?;
        output.flush()?;
    }
    Ok(())
}

/// Keeps the next part of a line, of which no more than one character over the limit is held.
fn keep(begun: &mut Vec<u8>, part: &[u8], limit: usize) {
    let room = limit + 1 - begun.len();
    begun.extend_from_slice(&part[..part.len().min(room)]);
}

#[cfg(test)]
mod tests {
    use super::*;

    /// Input that comes in pieces of a few bytes.
    struct Pieces<'a>(&'a [u8], usize);

    impl Read for Pieces<'_> {
        fn read(&mut self, buffer: &mut [u8]) -> io::Result<usize> {
            let count = self.0.len().min(self.1).min(buffer.len());
            buffer[..count].copy_from_slice(&self.0[..count]);
            self.0 = &self.0[count..];
            Ok(count)
        }
    }

    fn lines(input: &[u8], at_once: usize) -> String {
        let mut output = Vec::new();
        answer_lines(&mut Pieces(input, at_once), &mut output, 5, |line, out| {
            out.extend_from_slice(line.unwrap_or(b"over"));
            out.push(b'|');
        })
        .unwrap();
        String::from_utf8(output).unwrap()
    }

    #[test]
    fn lines_end_at_a_line_feed_or_the_end_of_input() {
        for at_once in 1..20 {
            assert_eq!(lines(b"", at_once), "");
            assert_eq!(lines(b"a", at_once), "a|");
            assert_eq!(lines(b"a\n", at_once), "a|");
            assert_eq!(lines(b"\n", at_once), "|");
            assert_eq!(lines(b"\n\nb", at_once), "||b|");
            assert_eq!(lines(b"12345\n123456\nx\n1234567", at_once), "12345|over|x|over|");
            assert_eq!(lines(b"123456789012\n\n12345", at_once), "over||12345|");
        }
    }
}
