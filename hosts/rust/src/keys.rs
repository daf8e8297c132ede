//! Keys: why a call was refused.

use std::error::Error;
use std::fmt;

use crate::constants;
use crate::lent;

/// The system's text: the meanings of the keys -1 to -21 in the words of the guide, section 18.1.
pub const SYSTEM_TEXT: &[u8] = include_bytes!("../../../release/krowjyvan.text");

/// Why a call was refused, or what a removal has told a job that waited: a number that isn't 0. Those of the guide have a
/// text there, and a key shows itself by it.
#[derive(Clone, Copy, PartialEq, Eq, PartialOrd, Ord, Hash)]
pub struct Key(i32);

impl Key {
    /// The queue is full or empty; the job is already active; a job that is to be removed is active.
    pub const NOT_COMPLETE: Key = Key(constants::NOT_COMPLETE);
    /// No such job; nobody is current; job positions or tags are used up.
    pub const INVALID_JOB: Key = Key(constants::INVALID_JOB);
    /// No free block is long enough.
    pub const OUT_OF_MEMORY: Key = Key(constants::OUT_OF_MEMORY);
    /// A fresh picture's sizes are bad.
    pub const OUT_OF_RANGE: Key = Key(constants::OUT_OF_RANGE);
    /// A table has fewer lines than the tree that is to be reported has jobs.
    pub const BUFFER_OVERFLOW: Key = Key(constants::BUFFER_OVERFLOW);
    /// No such channel; channel positions or tags are used up.
    pub const CHANNEL_NOT_OPEN: Key = Key(constants::CHANNEL_NOT_OPEN);
    /// The name isn't PIPE; there is no such error text.
    pub const NOT_FOUND: Key = Key(constants::NOT_FOUND);
    /// `PIPE_` isn't followed by 1 to 5 digits worth 1 to 32,766.
    pub const BAD_NAME: Key = Key(constants::BAD_NAME);
    /// Any other bad parameter; there is no such call.
    pub const BAD_PARAMETER: Key = Key(constants::BAD_PARAMETER);
    /// The picture isn't sound.
    pub const NOT_SOUND: Key = Key(constants::NOT_SOUND);

    /// Done for 0, else the key of that number.
    pub fn check(number: i32) -> Result<(), Key> {
        match number {
            constants::DONE => Ok(()),
            refused => Err(Key(refused)),
        }
    }

    /// The number of the key.
    pub fn number(self) -> i32 {
        self.0
    }

    /// The guide's text of the key, or nothing where it has none.
    pub fn text(self) -> Option<&'static str> {
        let text = error_text(self.0, SYSTEM_TEXT, &[]).ok()?;
        std::str::from_utf8(text).ok()
    }
}

impl fmt::Display for Key {
    fn fmt(&self, f: &mut fmt::Formatter<'_>) -> fmt::Result {
        match self.text() {
            Some(text) => f.pad(&format!("{text} ({})", self.0)),
            None => f.pad(&format!("key {}", self.0)),
        }
    }
}

impl fmt::Debug for Key {
    fn fmt(&self, f: &mut fmt::Formatter<'_>) -> fmt::Result {
        let name = match *self {
            Key::NOT_COMPLETE => "NOT_COMPLETE",
            Key::INVALID_JOB => "INVALID_JOB",
            Key::OUT_OF_MEMORY => "OUT_OF_MEMORY",
            Key::OUT_OF_RANGE => "OUT_OF_RANGE",
            Key::BUFFER_OVERFLOW => "BUFFER_OVERFLOW",
            Key::CHANNEL_NOT_OPEN => "CHANNEL_NOT_OPEN",
            Key::NOT_FOUND => "NOT_FOUND",
            Key::BAD_NAME => "BAD_NAME",
            Key::BAD_PARAMETER => "BAD_PARAMETER",
            Key::NOT_SOUND => "NOT_SOUND",
            _ => return write!(f, "Key({})", self.0),
        };
        write!(f, "Key::{name} ({})", self.0)
    }
}

impl Error for Key {}

/// The text of a key, as a part of one of two lent texts: the system's for a negative key, a driver's for a positive one.
/// [`Key::NOT_FOUND`] where there is none.
pub fn error_text<'a>(key: i32, system: &'a [u8], driver: &'a [u8]) -> Result<&'a [u8], Key> {
    let (answer, text) = lent::error_text(key, system, driver);
    Key::check(answer).map(|()| text)
}
