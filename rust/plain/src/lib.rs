//! # The desk of the deck lock in ordinary Rust
//!
//! What one would write for speed and clarity: the image is checked in place with early returns,
//! then one match on the stage edits bytes in place. The package `plain_block` is the same source
//! with one trick: it compares the log's rest with zeros as a block. It makes the same checks as every other
//! implementation of document 01, with R-1 and R-2 of document 02, and is there to be measured against; its
//! correctness rests on being driven over the same cases as the reference.
//!
//! The five calls are [`set_up`], [`begin_acquisition`], [`begin_release`], [`step`] and
//! [`take_log`]; [`turn`] steps whoever is next; [`turns`] is the program of the same name.
//!
//! ```
//! use plain::{Answer, Refusal};
//!
//! let mut image = [0; 1292];
//! assert_eq!(plain::begin_acquisition(&mut image, 1, 10), Err(Refusal::Unsound));
//! assert_eq!(plain::set_up(&mut image, 1), Ok(Answer::Done));
//! assert_eq!(plain::begin_acquisition(&mut image, 1, 10), Ok(Answer::Done));
//! assert_eq!(plain::step(&mut image, 1), Ok(Answer::Done));
//! assert_eq!(plain::step(&mut image, 1), Ok(Answer::Joined));
//! assert_eq!(plain::step(&mut image, 1), Ok(Answer::Done));
//! assert_eq!(plain::step(&mut image, 1), Ok(Answer::Admitted(1)));
//! ```

pub mod turns;

const RECORD: usize = 16;
const LOG: usize = 256;
const TRAILER: usize = 12;
const MAX_MODULES: u32 = 64;
const LAST_STAGE: u8 = 19;

// Offsets in a record.
const STAGE: usize = 0;
const OWN_PRIORITY: usize = 1;
const PREV: usize = 2;
const W_POINTER: usize = 3;
const W_MARK: usize = 4;
const ZERO_5: usize = 5;
const W_COUNT: usize = 6;
const LINK_POINTER: usize = 8;
const LINK_MARK: usize = 9;
const LINK_COUNT: usize = 10;
const RECORD_PRIORITY: usize = 12;
const LOCKED: usize = 13;
const S: usize = 14;
const ZERO_15: usize = 15;

// Offsets in the trailer.
const LOCK_WORD: usize = 0;
const EDITION: usize = 1;
const N: usize = 2;
const LOG_LENGTH: usize = 4;
const ZEROS: usize = 6;
const DISTANCE: usize = 8;

const OPEN: u8 = 0;
const CLOSED: u8 = 1;

/// What an accepted call says.
#[derive(Clone, Copy, PartialEq, Eq, Debug)]
pub enum Answer {
    /// 0, done.
    Done,
    /// 0, the log was taken and had this length.
    LogTaken(u16),
    /// 1, waiting.
    Waiting,
    /// 2, this module was admitted.
    Admitted(u8),
    /// 3, joined.
    Joined,
    /// 4, left.
    Left,
    /// 5, release finished.
    ReleaseFinished,
    /// 9, nobody can step.
    Nobody,
}

impl Answer {
    /// The paper's number.
    pub fn number(self) -> u8 {
        match self {
            Answer::Done | Answer::LogTaken(_) => 0,
            Answer::Waiting => 1,
            Answer::Admitted(_) => 2,
            Answer::Joined => 3,
            Answer::Left => 4,
            Answer::ReleaseFinished => 5,
            Answer::Nobody => 9,
        }
    }
}

/// Why a call was refused.
#[derive(Clone, Copy, PartialEq, Eq, Debug)]
#[repr(u8)]
pub enum Refusal {
    /// Image unsound.
    Unsound = 1,
    /// Module number 0 or above n.
    UnknownModule = 2,
    /// Priority not 1 to 254.
    Priority = 3,
    /// Wrong stage.
    Stage = 4,
    /// The step would admit and the log holds 256.
    LogFull = 5,
    /// Buffer for the log shorter than the log length.
    LogBufferShort = 6,
    /// Set-up with n not 1 to 64.
    Modules = 7,
    /// Set-up buffer shorter than 16n + 268.
    BufferShort = 8,
    /// Turn marker not 1 to n.
    Marker = 10,
}

impl Refusal {
    /// The paper's number.
    pub fn number(self) -> u8 {
        self as u8
    }
}

/// What a call says.
pub type Reply = Result<Answer, Refusal>;

type Record = [u8; RECORD];

/// A sound image, taken apart into its three pieces.
struct Desk<'a> {
    records: &'a mut [Record],
    log: &'a mut [u8; LOG],
    trailer: &'a mut [u8; TRAILER],
}

fn u16_at(bytes: &[u8], at: usize) -> u16 {
    u16::from_be_bytes([bytes[at], bytes[at + 1]])
}

/// Whether the log's rest is zero.
#[cfg(not(feature = "block"))]
fn is_clear(rest: &[u8]) -> bool {
    rest.iter().all(|&byte| byte == 0)
}

/// The same as one comparison of blocks, which the standard library leaves to the machine's quickest.
#[cfg(feature = "block")]
fn is_clear(rest: &[u8]) -> bool {
    rest == &[0; LOG][..rest.len()]
}

fn record_is_sound(record: &Record, n: u8) -> bool {
    let stage = record[STAGE];
    let own_priority = record[OWN_PRIORITY];
    if record[ZERO_5] != 0 || record[ZERO_15] != 0 {
        return false;
    }
    if record[PREV] > n || record[W_POINTER] > n || record[LINK_POINTER] > n || record[S] > n {
        return false;
    }
    if record[W_MARK] > 1 || record[LINK_MARK] > 1 || record[LOCKED] > 1 {
        return false;
    }
    if (stage == 0) != (own_priority == 0) || own_priority == 255 {
        return false;
    }
    match stage {
        4..=6 | 8..=10 => record[PREV] != 0,
        7 => record[PREV] != 0 && record[W_POINTER] != 0,
        17 | 18 => record[S] != 0,
        _ => stage <= LAST_STAGE,
    }
}

impl<'a> Desk<'a> {
    /// Take a sound image apart; `None` if it is unsound.
    fn open(image: &'a mut [u8]) -> Option<Desk<'a>> {
        let (front, trailer) = image.split_last_chunk_mut::<TRAILER>()?;
        let n = u16_at(trailer, N);
        if trailer[EDITION] != 1 || n == 0 || u32::from(n) > MAX_MODULES {
            return None;
        }
        if trailer[ZEROS] != 0 || trailer[ZEROS + 1] != 0 {
            return None;
        }
        let distance = RECORD * usize::from(n) + LOG;
        if trailer[DISTANCE..] != (distance as u32).to_be_bytes() {
            return None;
        }
        let n = n as u8;
        let log_length = usize::from(u16_at(trailer, LOG_LENGTH));
        if log_length > LOG || trailer[LOCK_WORD] > n {
            return None;
        }
        let record_1 = front.len().checked_sub(distance)?;
        let (records, log) = front[record_1..].split_last_chunk_mut::<LOG>()?;
        let (entries, rest) = log.split_at(log_length);
        if entries.iter().any(|&entry| entry == 0 || entry > n) {
            return None;
        }
        if !is_clear(rest) {
            return None;
        }
        let (records, _) = records.as_chunks_mut::<RECORD>();
        if !records.iter().all(|record| record_is_sound(record, n)) {
            return None;
        }
        Some(Desk {
            records,
            log,
            trailer,
        })
    }

    fn module(&self, p: u32) -> Result<u8, Refusal> {
        let n = self.trailer[N + 1];
        match u8::try_from(p) {
            Ok(module) if module >= 1 && module <= n => Ok(module),
            _ => Err(Refusal::UnknownModule),
        }
    }

    /// The record of a module, which is 1 to n.
    fn record(&mut self, module: u8) -> &mut Record {
        &mut self.records[usize::from(module) - 1]
    }

    fn log_length(&self) -> usize {
        usize::from(u16_at(self.trailer, LOG_LENGTH))
    }

    fn set_log_length(&mut self, length: usize) {
        self.trailer[LOG_LENGTH..LOG_LENGTH + 2].copy_from_slice(&(length as u16).to_be_bytes());
    }

    fn ensure_log_room(&self) -> Result<(), Refusal> {
        if self.log_length() < LOG {
            Ok(())
        } else {
            Err(Refusal::LogFull)
        }
    }

    fn log_admission(&mut self, module: u8) {
        let length = self.log_length();
        self.log[length] = module;
        self.set_log_length(length + 1);
    }

    /// w := the link of another module, or of this one. Says whether it is closed.
    fn read_link(&mut self, me: u8, of: u8) -> bool {
        let source = self.record(of);
        let (pointer, mark) = (source[LINK_POINTER], source[LINK_MARK]);
        let count = [source[LINK_COUNT], source[LINK_COUNT + 1]];
        let own = self.record(me);
        own[W_POINTER] = pointer;
        own[W_MARK] = mark;
        own[W_COUNT..W_COUNT + 2].copy_from_slice(&count);
        mark == CLOSED
    }

    fn step(&mut self, me: u8) -> Reply {
        let own = &mut self.records[usize::from(me) - 1];
        let own_priority = own[OWN_PRIORITY];
        let prev = own[PREV];
        let s = own[S];
        let (next, answer) = match own[STAGE] {
            1 => {
                own[LINK_POINTER] = 0;
                bump(own);
                (2, Answer::Done)
            }
            2 => match self.trailer[LOCK_WORD] {
                0 => {
                    self.trailer[LOCK_WORD] = me;
                    (19, Answer::Joined)
                }
                first => {
                    own[PREV] = first;
                    (4, Answer::Done)
                }
            },
            3 => {
                self.ensure_log_room()?;
                let own = self.record(me);
                own[LINK_MARK] = OPEN;
                bump(own);
                self.log_admission(me);
                (13, Answer::Admitted(me))
            }
            4 => {
                own[LOCKED] = 1;
                (5, Answer::Done)
            }
            5 => {
                let closed = self.read_link(me, prev);
                (if closed { 1 } else { 6 }, Answer::Done)
            }
            6 => {
                let w_is_nil = own[W_POINTER] == 0;
                let next = if self.record(prev)[RECORD_PRIORITY] < own_priority {
                    1
                } else if w_is_nil {
                    8
                } else {
                    7
                };
                (next, Answer::Done)
            }
            7 => {
                let candidate = own[W_POINTER];
                if self.record(candidate)[RECORD_PRIORITY] < own_priority {
                    (8, Answer::Done)
                } else {
                    self.record(me)[PREV] = candidate;
                    (5, Answer::Done)
                }
            }
            8 => {
                own[LINK_POINTER] = own[W_POINTER];
                bump(own);
                (9, Answer::Done)
            }
            9 => {
                let expected = (own[W_POINTER], own[W_MARK], u16_at(own, W_COUNT));
                let target = self.record(prev);
                let found = (
                    target[LINK_POINTER],
                    target[LINK_MARK],
                    u16_at(target, LINK_COUNT),
                );
                if found == expected {
                    target[LINK_POINTER] = me;
                    target[LINK_MARK] = OPEN;
                    bump(target);
                    (11, Answer::Joined)
                } else {
                    let closed = self.read_link(me, prev);
                    (if closed { 1 } else { 10 }, Answer::Done)
                }
            }
            10 => {
                let lost = self.record(prev)[RECORD_PRIORITY] < own_priority;
                (if lost { 1 } else { 5 }, Answer::Done)
            }
            11 => {
                own[LINK_MARK] = OPEN;
                bump(own);
                (12, Answer::Done)
            }
            12 => {
                if own[LOCKED] == 1 {
                    return Ok(Answer::Waiting);
                }
                self.ensure_log_room()?;
                self.log_admission(me);
                (13, Answer::Admitted(me))
            }
            14 => {
                own[LINK_MARK] = CLOSED;
                bump(own);
                (15, Answer::Left)
            }
            15 => {
                own[S] = own[LINK_POINTER];
                (16, Answer::Done)
            }
            16 => {
                self.trailer[LOCK_WORD] = s;
                if s == 0 {
                    own[OWN_PRIORITY] = 0;
                    (0, Answer::ReleaseFinished)
                } else {
                    (17, Answer::Done)
                }
            }
            17 => {
                self.record(s)[RECORD_PRIORITY] = 255;
                (18, Answer::Done)
            }
            18 => {
                self.record(s)[LOCKED] = 0;
                self.record(me)[OWN_PRIORITY] = 0;
                (0, Answer::ReleaseFinished)
            }
            19 => {
                own[RECORD_PRIORITY] = 255;
                (3, Answer::Done)
            }
            _ => return Err(Refusal::Stage),
        };
        self.record(me)[STAGE] = next;
        Ok(answer)
    }
}

/// Add 1 to the change count of a record's link; after 65,535 comes 0.
fn bump(record: &mut Record) {
    let count = u16_at(record, LINK_COUNT).wrapping_add(1);
    record[LINK_COUNT..LINK_COUNT + 2].copy_from_slice(&count.to_be_bytes());
}

/// Set up a fresh table of `n` modules at the end of the buffer.
pub fn set_up(image: &mut [u8], n: u32) -> Reply {
    if !(1..=MAX_MODULES).contains(&n) {
        return Err(Refusal::Modules);
    }
    let distance = RECORD * n as usize + LOG;
    let start = image
        .len()
        .checked_sub(distance + TRAILER)
        .ok_or(Refusal::BufferShort)?;
    let table = &mut image[start..];
    table.fill(0);
    let (body, trailer) = table.split_at_mut(distance);
    for record in body[..distance - LOG].chunks_exact_mut(RECORD) {
        record[LINK_MARK] = CLOSED;
    }
    trailer[EDITION] = 1;
    trailer[N..N + 2].copy_from_slice(&(n as u16).to_be_bytes());
    trailer[DISTANCE..].copy_from_slice(&(distance as u32).to_be_bytes());
    Ok(Answer::Done)
}

/// Begin an acquisition for module `p` with this priority.
pub fn begin_acquisition(image: &mut [u8], p: u32, priority: u32) -> Reply {
    let mut desk = Desk::open(image).ok_or(Refusal::Unsound)?;
    let module = desk.module(p)?;
    if !(1..=254).contains(&priority) {
        return Err(Refusal::Priority);
    }
    let record = desk.record(module);
    if record[STAGE] != 0 {
        return Err(Refusal::Stage);
    }
    record[OWN_PRIORITY] = priority as u8;
    record[RECORD_PRIORITY] = priority as u8;
    record[STAGE] = 1;
    Ok(Answer::Done)
}

/// Begin a release for module `p`.
pub fn begin_release(image: &mut [u8], p: u32) -> Reply {
    let mut desk = Desk::open(image).ok_or(Refusal::Unsound)?;
    let module = desk.module(p)?;
    let record = desk.record(module);
    if record[STAGE] != 13 {
        return Err(Refusal::Stage);
    }
    record[STAGE] = 14;
    Ok(Answer::Done)
}

/// Take one step for module `p`.
pub fn step(image: &mut [u8], p: u32) -> Reply {
    let mut desk = Desk::open(image).ok_or(Refusal::Unsound)?;
    let module = desk.module(p)?;
    desk.step(module)
}

/// Hand out a turn to the first module after `last` around the table, itself last, that can step.
pub fn turn(image: &mut [u8], last: &mut u32) -> Reply {
    let mut desk = Desk::open(image).ok_or(Refusal::Unsound)?;
    let served = desk.module(*last).map_err(|_| Refusal::Marker)?;
    let n = desk.trailer[N + 1];
    let next = (served + 1..=n)
        .chain(1..=served)
        .find(|&module| !matches!(desk.record(module)[STAGE], 0 | 13));
    let Some(next) = next else {
        return Ok(Answer::Nobody);
    };
    let answer = desk.step(next)?;
    *last = u32::from(next);
    Ok(answer)
}

/// Take the log into the first bytes of `log`, and make the held log empty and zero.
pub fn take_log(image: &mut [u8], log: &mut [u8]) -> Reply {
    let mut desk = Desk::open(image).ok_or(Refusal::Unsound)?;
    let length = desk.log_length();
    let target = log.get_mut(..length).ok_or(Refusal::LogBufferShort)?;
    let entries = &mut desk.log[..length];
    target.copy_from_slice(entries);
    entries.fill(0);
    desk.set_log_length(0);
    Ok(Answer::LogTaken(length as u16))
}

/// The lock word and the held log entries of a sound image; `None` if it is unsound.
pub fn held(image: &mut [u8]) -> Option<(u8, &[u8])> {
    let desk = Desk::open(image)?;
    let length = desk.log_length();
    let lock_word = desk.trailer[LOCK_WORD];
    let log: &[u8] = desk.log;
    Some((lock_word, &log[..length]))
}
