//! Error text: two texts are lent, the system's and the driver's, and the answer is a part of one of them.

use crate::keys::{Key, DONE, NOT_FOUND};

/// The strings of the system's text, for the keys -1 to -21.
const SYSTEM_STRINGS: u32 = 21;

/// The string whose length word begins the text, and what follows it; none where it is cut short.
fn first_string(text: &[u8]) -> Option<(&[u8], &[u8])> {
    let (&[high, low], behind) = text.split_first_chunk()?;
    behind.split_at_checked(usize::from(u16::from_be_bytes([high, low])))
}

/// The system's string for a negative key.
fn system_string(key: Key, system: &[u8]) -> Option<&[u8]> {
    let before = key.unsigned_abs() - 1;
    if before >= SYSTEM_STRINGS {
        return None;
    }
    let mut text = system;
    for _ in 0..before {
        text = first_string(text)?.1;
    }
    Some(first_string(text)?.0)
}

/// The driver's string at a positive key's offset.
fn driver_string(key: Key, driver: &[u8]) -> Option<&[u8]> {
    let text = driver.get(usize::try_from(key).ok()?..)?;
    Some(first_string(text)?.0)
}

/// The text of an error, as a part of the lent text, and the key of the answer.
pub fn error_text<'a>(key: Key, system: &'a [u8], driver: &'a [u8]) -> (Key, &'a [u8]) {
    let found = match key {
        0 => None,
        1.. => driver_string(key, driver),
        _ => system_string(key, system),
    };
    match found {
        Some(part) => (DONE, part),
        None => (NOT_FOUND, &system[..0]),
    }
}

#[cfg(test)]
mod tests {
    use super::*;

    fn text(strings: &[&str]) -> Vec<u8> {
        strings.iter().flat_map(|s| [&(s.len() as u16).to_be_bytes(), s.as_bytes()].concat()).collect()
    }

    fn system() -> Vec<u8> {
        let names: Vec<String> = (1..=21).map(|k| "e".repeat(k % 7) + &k.to_string()).collect();
        text(&names.iter().map(String::as_str).collect::<Vec<_>>())
    }

    /// Where a part begins in a text that it is a part of.
    fn offset(part: &[u8], whole: &[u8]) -> usize {
        part.as_ptr() as usize - whole.as_ptr() as usize
    }

    #[test]
    fn a_negative_key_picks_a_system_string_by_order() {
        let system = system();
        let mut at = 0;
        for k in 1..=21usize {
            let (key, part) = error_text(-(k as Key), &system, b"");
            assert_eq!(key, DONE);
            assert_eq!(part, ("e".repeat(k % 7) + &k.to_string()).as_bytes());
            assert_eq!(offset(part, &system), at + 2);
            at += 2 + part.len();
        }
    }

    #[test]
    fn a_key_without_a_text_answers_minus_7_and_the_start_of_the_systems_text() {
        let system = system();
        let driver = text(&["driver"]);
        for key in [0, -22, -23, Key::MIN, 1, 7, 8, 9, Key::MAX] {
            let (answer, part) = error_text(key, &system, &driver);
            assert_eq!((answer, part, offset(part, &system)), (NOT_FOUND, &b""[..], 0), "key {key}");
        }
    }

    #[test]
    fn a_positive_key_is_an_offset_in_the_drivers_text_without_alignment() {
        let driver = [b"?", text(&["first", "", "last"]).as_slice()].concat();
        assert_eq!(error_text(1, b"", &driver), (DONE, &b"first"[..]));
        assert_eq!(error_text(8, b"", &driver), (DONE, &b""[..]));
        assert_eq!(offset(error_text(8, b"", &driver).1, &driver), 10);
        assert_eq!(error_text(10, b"", &driver), (DONE, &b"last"[..]));
        assert_eq!(error_text(11, b"", &driver), (NOT_FOUND, &b""[..]));
    }

    #[test]
    fn only_strings_up_to_the_one_asked_for_can_be_cut_short() {
        let whole = text(&["one", "two", "three"]);
        for cut in 0..=whole.len() {
            let lent = &whole[..cut];
            assert_eq!(error_text(-1, lent, b"").0 == DONE, cut >= 5);
            assert_eq!(error_text(-2, lent, b"").0 == DONE, cut >= 10);
            assert_eq!(error_text(-3, lent, b"").0 == DONE, cut >= 17);
            assert_eq!(error_text(-4, lent, b"").0, NOT_FOUND);
        }
        assert_eq!(error_text(-2, &[0, 0, 0, 0], b""), (DONE, &b""[..]));
        assert_eq!(error_text(-1, &[0], b"").0, NOT_FOUND);
    }

    #[test]
    fn lengths_are_unsigned() {
        let long = text(&["x".repeat(40_000).as_str(), "y"]);
        assert_eq!(error_text(-1, &long, b"").1.len(), 40_000);
        assert_eq!(error_text(-2, &long, b"").1, b"y");
    }
}
