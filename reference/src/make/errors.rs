//! Trials of error texts: every key, strings cut short at every place, empty strings, and offsets of every kind.

use super::Maker;
use crate::keys::Key;
use crate::random::Random;

fn text(strings: &[&[u8]]) -> Vec<u8> {
    strings.iter().flat_map(|string| [&(string.len() as u16).to_be_bytes(), *string].concat()).collect()
}

/// Some strings, a few of them empty, of characters of every kind.
fn some_text(random: &mut Random, strings: usize) -> Vec<u8> {
    let mut text = Vec::new();
    for _ in 0..strings {
        let length = if random.once_in(5) { 0 } else { random.below(9) };
        text.extend((length as u16).to_be_bytes());
        text.extend((0..length).map(|_| random.longword() as u8));
    }
    text
}

pub fn listed(maker: &mut Maker) {
    let names: Vec<Vec<u8>> = (1..=21).map(|k| format!("e{k}").into_bytes()).collect();
    let system = text(&names.iter().map(Vec::as_slice).collect::<Vec<_>>());
    let driver = text(&[b"one", b"", b"three"]);
    for key in (-24..=2).chain([Key::MIN, Key::MIN + 1, -100, -65_536, -65_537]) {
        maker.error_text(key, &system, &driver);
    }
    for key in (1..=18).chain([255, 256, 65_536, 65_537, Key::MAX - 1, Key::MAX]) {
        maker.error_text(key, &system, &driver);
    }
    let more = [&system, &b"\x00\x05extra"[..]].concat();
    for key in [-21, -22] {
        maker.error_text(key, &more, b"");
    }
    // Cut short at every place, the string asked for, those before and those behind it.
    let short = text(&[b"ab", b"", b"c"]);
    for cut in 0..=short.len() {
        for key in -4..=-1 {
            maker.error_text(key, &short[..cut], &driver);
        }
        maker.error_text(3, &system[..2], &short[..cut]);
    }
    // Lengths of which the high byte counts, and which are unsigned.
    let long = text(&[&[0x41; 258], b"end"]);
    for key in [-1, -2, -3] {
        maker.error_text(key, &long, b"");
        maker.error_text(key, &long[..259], b"");
    }
    for lengths in [[0x80, 0x00], [0xFF, 0xFF], [0x01, 0x00], [0x00, 0x01]] {
        for filling in [0, 1, 2, 255, 256, 257] {
            let text = [&lengths[..], &vec![0x2A; filling]].concat();
            maker.error_text(-1, &text, b"");
            maker.error_text(1, b"", &[b"\xEE", text.as_slice()].concat());
        }
    }
    for key in [0, -1, -21, 1, 2] {
        maker.error_text(key, b"", b"");
    }
}

pub fn one_more(maker: &mut Maker) {
    let strings = maker.random.below(24);
    let mut system = some_text(&mut maker.random, strings);
    let strings = maker.random.below(5);
    let driver = some_text(&mut maker.random, strings);
    if maker.random.once_in(3) {
        system.truncate(maker.random.below(system.len() + 1));
    }
    let key = match maker.random.below(4) {
        0 => maker.random.between(0, driver.len() as u32 + 2) as Key,
        1 => maker.random.longword() as Key >> maker.random.below(32),
        _ => -(maker.random.between(1, 22) as Key),
    };
    maker.error_text(key, &system, &driver);
}
