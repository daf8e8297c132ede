//! Job numbers and channel numbers: two kinds, and one never stands for the other.

use std::fmt;

use crate::constants::{CURRENT_JOB, NOBODY, TAG_WEIGHT};

macro_rules! number {
    ($(#[$meaning:meta])* $name:ident) => {
        $(#[$meaning])*
        #[derive(Clone, Copy, PartialEq, Eq, PartialOrd, Ord, Hash)]
        pub struct $name(pub u32);

        impl $name {
            /// The tag, which is given once and never again.
            pub fn tag(self) -> u32 {
                self.0 / TAG_WEIGHT
            }

            /// The position in its table.
            pub fn position(self) -> u32 {
                self.0 % TAG_WEIGHT
            }
        }

        impl fmt::Display for $name {
            fn fmt(&self, f: &mut fmt::Formatter<'_>) -> fmt::Result {
                f.pad(&format!("${:08X}", self.0))
            }
        }

        impl fmt::Debug for $name {
            fn fmt(&self, f: &mut fmt::Formatter<'_>) -> fmt::Result {
                write!(f, concat!(stringify!($name), "({})"), self)
            }
        }
    };
}

number! {
    /// The number of a job.
    JobNumber
}

number! {
    /// The number of a channel.
    ChannelNumber
}

impl JobNumber {
    /// The job that is always there.
    pub const ZERO: JobNumber = JobNumber(0);
    /// Means the current job in every call, but as the owner of [`crate::Picture::mt_cjob`] and the top of
    /// [`crate::Picture::mt_jinf`] and [`crate::Picture::report_tree`], where it names no job.
    pub const CURRENT: JobNumber = JobNumber(CURRENT_JOB);

    /// The job that a longword of the picture or a register names, or none where it holds the number for nobody.
    pub(crate) fn named(longword: u32) -> Option<JobNumber> {
        (longword != NOBODY).then_some(JobNumber(longword))
    }
}
