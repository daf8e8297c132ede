//! The manager of a hub, linked from `libkrowjyvan.a`: programs ("jobs"), their memory, the queues between them
//! ("channels") and whose turn it is, behind the calls of the Sinclair QL's operating system.
//!
//! A [`Picture`] owns all that the manager knows. Its methods are the calls, under the names of the QL Technical Guide;
//! a refusal is a [`Key`], and changes nothing. [`Picture::report_tree`] tells of every job of a tree at once.
//! [`Picture::trap`] takes raw registers, and [`lent`] plain slices.
//!
//! Every call is made by the current job, the one that the last [`Picture::pick`] chose; in a fresh picture that is job
//! 0. Where nobody is current, a call is refused by [`Key::INVALID_JOB`]. Some calls leave nobody current when they are
//! done, which their text says: then go on with `pick`, and the job that made the call goes on at a later turn.
//!
//! ```
//! use krowjyvan::{JobNumber, Key, Picture};
//!
//! let mut hub = Picture::fresh(1_024, 256)?;
//! let desk = hub.mt_cjob(Some(JobNumber::ZERO), 60, 40, 0)?.job;
//! let queue = hub.io_open(desk, b"PIPE_8")?;
//! hub.io_sbyte(queue, 8)?;
//! hub.mt_frjob(desk, 0)?;
//! assert_eq!(hub.pick()?.job, Some(JobNumber::ZERO));
//! assert_eq!(hub.io_fbyte(queue), Err(Key::CHANNEL_NOT_OPEN));
//! # Ok::<(), Key>(())
//! ```
//!
//! | word | means |
//! |---|---|
//! | live | of a job or a channel: from its creation to its removal; so long its number names it, and after that nothing |
//! | active | of a job: its priority isn't 0; a new one isn't active |
//! | suspended | of a job: its timeout isn't 0; a job that waits for another is suspended without end |
//! | ready | active and not suspended: a pick chooses among the ready jobs |
//! | tree | of a job: the job, the jobs that it owns, those that they own, and so on |
//! | sound | of a picture: it holds together; a fresh one does, and every function leaves a sound one sound |
#![warn(missing_docs)]

pub mod constants;
pub mod lent;

mod keys;
mod numbers;
mod picture;

pub use keys::{error_text, Key, SYSTEM_TEXT};
pub use numbers::{ChannelNumber, JobNumber};
pub use picture::{Created, Information, JobInformation, JobLine, Picked, Picture, Record, Registers, Room};
