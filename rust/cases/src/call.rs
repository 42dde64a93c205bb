//! A call with its arguments.

use std::fmt;

/// One of the five calls or a turn, with what it is given besides the image.
#[derive(Clone, PartialEq, Eq, Debug)]
pub enum Call {
    /// Set up a fresh table of n modules.
    SetUp {
        /// The number of modules, as given.
        n: u32,
    },
    /// Begin an acquisition.
    BeginAcquisition {
        /// The module, as given.
        p: u32,
        /// The priority, as given.
        priority: u32,
    },
    /// Begin a release.
    BeginRelease {
        /// The module, as given.
        p: u32,
    },
    /// Take one step.
    Step {
        /// The module, as given.
        p: u32,
    },
    /// Take the log.
    TakeLog {
        /// The buffer for the log as it is before the call.
        buffer: Vec<u8>,
    },
    /// Hand out a turn.
    Turn {
        /// The marker as it is before the call.
        last: u32,
    },
}

impl fmt::Display for Call {
    fn fmt(&self, f: &mut fmt::Formatter<'_>) -> fmt::Result {
        match self {
            Call::SetUp { n } => write!(f, "set up, n = {n}"),
            Call::BeginAcquisition { p, priority } => {
                write!(f, "begin acquisition, module {p}, priority {priority}")
            }
            Call::BeginRelease { p } => write!(f, "begin release, module {p}"),
            Call::Step { p } => write!(f, "step, module {p}"),
            Call::TakeLog { buffer } => {
                write!(f, "take the log into a buffer of {} bytes", buffer.len())
            }
            Call::Turn { last } => write!(f, "turn, marker {last}"),
        }
    }
}
