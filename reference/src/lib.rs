//! The manager of document 01, with requests 1 to 3 of document 02, in ordinary Rust: jobs, heap, channels, queues and turns
//! over a lent picture, and the report of a tree.
//!
//! Written from the papers alone. It is the second reading that another version is compared with, and the
//! baseline for its speed.

pub mod blocks;
pub mod channels;
pub mod errors;
pub mod fresh;
pub mod jobs;
pub mod keys;
pub mod manager;
pub mod picture;
pub mod registers;
pub mod report;
pub mod sound;
pub mod turns;

pub mod hexadecimal;
pub mod lines;
pub mod session;
pub mod trial;

#[cfg(test)]
mod desk;
#[cfg(test)]
mod histories;
pub mod make;
pub mod random;
