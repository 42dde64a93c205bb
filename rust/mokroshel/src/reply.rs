//! What a call says, and the word that carries it out of the archive.

use core::fmt;

/// What an accepted call says happened.
#[derive(Clone, Copy, PartialEq, Eq, Debug)]
pub enum Answer {
    /// 0, done.
    Done,
    /// 0, the log was taken and had this length.
    LogTaken(usize),
    /// 1, waiting: at stage 12, and Locked is 1.
    Waiting,
    /// 2, this module was admitted.
    Admitted(u32),
    /// 3, joined.
    Joined,
    /// 4, left.
    Left,
    /// 5, the release is finished.
    ReleaseFinished,
    /// 9, nobody can step: every module is idle or inside.
    Nobody,
}

impl Answer {
    /// The answer's number.
    pub const fn number(self) -> u8 {
        match self {
            Answer::Done | Answer::LogTaken(_) => 0,
            Answer::Waiting => 1,
            Answer::Admitted(_) => 2,
            Answer::Joined => 3,
            Answer::Left => 4,
            Answer::ReleaseFinished => 5,
            Answer::Nobody => 9,
        }
    }
}

/// Why a call was refused. A refused call changes no byte.
#[derive(Clone, Copy, PartialEq, Eq, Debug)]
pub enum Refusal {
    /// 1, the image is unsound.
    Unsound = 1,
    /// 2, the module number is 0 or above n.
    NoSuchModule = 2,
    /// 3, the priority is not 1 to 254.
    WrongPriority = 3,
    /// 4, the module is at the wrong stage for this call.
    WrongStage = 4,
    /// 5, the step would admit, and the log holds 256.
    LogFull = 5,
    /// 6, the buffer for the log is shorter than the log.
    ShortLogBuffer = 6,
    /// 7, the number of modules is not 1 to 64.
    WrongNumberOfModules = 7,
    /// 8, the buffer for a table is shorter than 16n + 268 bytes.
    ShortBuffer = 8,
    /// 10, the turn marker is not 1 to n.
    WrongMarker = 10,
}

impl Refusal {
    /// The refusal's number.
    pub const fn number(self) -> u8 {
        self as u8
    }
}

impl fmt::Display for Refusal {
    fn fmt(&self, f: &mut fmt::Formatter<'_>) -> fmt::Result {
        let why = match self {
            Refusal::Unsound => "the image is unsound",
            Refusal::NoSuchModule => "the module number is 0 or above n",
            Refusal::WrongPriority => "the priority is not 1 to 254",
            Refusal::WrongStage => "the module is at the wrong stage for this call",
            Refusal::LogFull => "the step would admit and the log holds 256",
            Refusal::ShortLogBuffer => "the buffer for the log is shorter than the log",
            Refusal::WrongNumberOfModules => "the number of modules is not 1 to 64",
            Refusal::ShortBuffer => "the buffer is shorter than the table",
            Refusal::WrongMarker => "the turn marker is not 1 to n",
        };
        write!(f, "refused {}: {why}", self.number())
    }
}

impl core::error::Error for Refusal {}

/// The reply that a word carries: 2^31 and a refusal's number; or an answer's number, 256 times the
/// admitted module and 65,536 times the length of the log taken.
///
/// No other word is ever given, so there is nothing to make of one.
pub(crate) fn unpack(word: u32) -> Result<Answer, Refusal> {
    let (number, module, length) = (word & 0xff, word >> 8 & 0xff, word >> 16);
    match (number, module, length) {
        (0, 0, 0) => Ok(Answer::Done),
        (1, 0, 0) => Ok(Answer::Waiting),
        (2, 1..=64, 0) => Ok(Answer::Admitted(module)),
        (3, 0, 0) => Ok(Answer::Joined),
        (4, 0, 0) => Ok(Answer::Left),
        (5, 0, 0) => Ok(Answer::ReleaseFinished),
        (9, 0, 0) => Ok(Answer::Nobody),
        (0, 0, 1..=256) => Ok(Answer::LogTaken(length as usize)),
        (1, 0, 0x8000) => Err(Refusal::Unsound),
        (2, 0, 0x8000) => Err(Refusal::NoSuchModule),
        (3, 0, 0x8000) => Err(Refusal::WrongPriority),
        (4, 0, 0x8000) => Err(Refusal::WrongStage),
        (5, 0, 0x8000) => Err(Refusal::LogFull),
        (6, 0, 0x8000) => Err(Refusal::ShortLogBuffer),
        (7, 0, 0x8000) => Err(Refusal::WrongNumberOfModules),
        (8, 0, 0x8000) => Err(Refusal::ShortBuffer),
        (10, 0, 0x8000) => Err(Refusal::WrongMarker),
        _ => unreachable!("no call gives the word {word:#x}"),
    }
}
