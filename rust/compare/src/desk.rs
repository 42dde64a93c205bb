//! What a desk is, and the two desks at hand.

use std::fmt;

use cases::Call;

/// What a call said, in plain numbers.
#[derive(Clone, Copy, PartialEq, Eq, Debug)]
pub struct Said {
    /// Whether the call was refused.
    pub refused: bool,
    /// The refusal's number, or the answer's.
    pub number: u32,
    /// The admitted module where the answer is 2, else 0.
    pub module: u32,
    /// The log's length where the log was taken, else 0.
    pub length: u32,
}

impl Said {
    /// Refused by this number.
    pub fn refused(number: u32) -> Said {
        Said {
            refused: true,
            number,
            module: 0,
            length: 0,
        }
    }

    /// Answered by this number.
    pub fn answered(number: u32) -> Said {
        Said {
            refused: false,
            number,
            module: 0,
            length: 0,
        }
    }

    /// The refusal's number, if it is one.
    pub fn refusal(self) -> Option<u32> {
        self.refused.then_some(self.number)
    }
}

impl fmt::Display for Said {
    fn fmt(&self, f: &mut fmt::Formatter<'_>) -> fmt::Result {
        let word = if self.refused { "refused" } else { "answered" };
        write!(f, "{word} {}", self.number)?;
        if self.module != 0 {
            write!(f, ", module {}", self.module)?;
        }
        if self.length != 0 {
            write!(f, ", length {}", self.length)?;
        }
        Ok(())
    }
}

/// What a call is lent besides the image. A call that is lent neither leaves both alone.
#[derive(Clone, PartialEq, Eq, Debug, Default)]
pub struct Lent {
    /// The buffer for the log.
    pub log: Vec<u8>,
    /// The turn marker.
    pub last: u32,
}

impl Lent {
    /// The buffer or the marker becomes what this call has before it.
    pub fn give(&mut self, call: &Call) {
        match call {
            Call::TakeLog { buffer } => self.log.clone_from(buffer),
            Call::Turn { last } => self.last = *last,
            _ => {}
        }
    }

    /// Whether it is still so.
    pub fn is_as_given(&self, call: &Call) -> bool {
        match call {
            Call::TakeLog { buffer } => self.log == *buffer,
            Call::Turn { last } => self.last == *last,
            _ => true,
        }
    }
}

/// Anything that takes the five calls and the turn.
///
/// A desk must take every buffer and every number. It must keep nothing between calls: all state
/// is in the image and the turn marker.
pub trait Desk {
    /// A name for accounts.
    fn name(&self) -> String;
    /// Set up a fresh table.
    fn set_up(&mut self, image: &mut [u8], n: u32) -> Said;
    /// Begin an acquisition.
    fn begin_acquisition(&mut self, image: &mut [u8], p: u32, priority: u32) -> Said;
    /// Begin a release.
    fn begin_release(&mut self, image: &mut [u8], p: u32) -> Said;
    /// Take one step.
    fn step(&mut self, image: &mut [u8], p: u32) -> Said;
    /// Take the log.
    fn take_log(&mut self, image: &mut [u8], log: &mut [u8]) -> Said;
    /// Hand out a turn by the marker.
    fn turn(&mut self, image: &mut [u8], last: &mut u32) -> Said;

    /// Any of them. What it is lent is [given](Lent::give) first, and left in `lent`.
    fn call(&mut self, image: &mut [u8], lent: &mut Lent, call: &Call) -> Said {
        lent.give(call);
        match call {
            Call::SetUp { n } => self.set_up(image, *n),
            Call::BeginAcquisition { p, priority } => self.begin_acquisition(image, *p, *priority),
            Call::BeginRelease { p } => self.begin_release(image, *p),
            Call::Step { p } => self.step(image, *p),
            Call::TakeLog { .. } => self.take_log(image, &mut lent.log),
            Call::Turn { .. } => self.turn(image, &mut lent.last),
        }
    }
}

/// The reference as a desk.
#[derive(Clone, Copy, Debug, Default)]
pub struct ReferenceDesk;

impl From<reference::Reply> for Said {
    fn from(reply: reference::Reply) -> Said {
        match reply {
            reference::Reply::Refused(number) => Said::refused(u32::from(number)),
            reference::Reply::Answered {
                number,
                admitted,
                log_length,
            } => Said {
                refused: false,
                number: u32::from(number),
                module: admitted.map_or(0, u32::from),
                length: log_length.map_or(0, u32::from),
            },
        }
    }
}

impl Desk for ReferenceDesk {
    fn name(&self) -> String {
        "reference".into()
    }

    fn set_up(&mut self, image: &mut [u8], n: u32) -> Said {
        reference::set_up(image, n).into()
    }

    fn begin_acquisition(&mut self, image: &mut [u8], p: u32, priority: u32) -> Said {
        reference::begin_acquisition(image, p, priority).into()
    }

    fn begin_release(&mut self, image: &mut [u8], p: u32) -> Said {
        reference::begin_release(image, p).into()
    }

    fn step(&mut self, image: &mut [u8], p: u32) -> Said {
        reference::step(image, p).into()
    }

    fn take_log(&mut self, image: &mut [u8], log: &mut [u8]) -> Said {
        reference::take_log(image, log).into()
    }

    fn turn(&mut self, image: &mut [u8], last: &mut u32) -> Said {
        reference::turn(image, last).into()
    }
}

/// The plain implementation as a desk.
#[derive(Clone, Copy, Debug, Default)]
pub struct PlainDesk;

impl From<plain::Reply> for Said {
    fn from(reply: plain::Reply) -> Said {
        match reply {
            Err(refusal) => Said::refused(u32::from(refusal.number())),
            Ok(answer) => Said {
                refused: false,
                number: u32::from(answer.number()),
                module: match answer {
                    plain::Answer::Admitted(module) => u32::from(module),
                    _ => 0,
                },
                length: match answer {
                    plain::Answer::LogTaken(length) => u32::from(length),
                    _ => 0,
                },
            },
        }
    }
}

impl Desk for PlainDesk {
    fn name(&self) -> String {
        "plain".into()
    }

    fn set_up(&mut self, image: &mut [u8], n: u32) -> Said {
        plain::set_up(image, n).into()
    }

    fn begin_acquisition(&mut self, image: &mut [u8], p: u32, priority: u32) -> Said {
        plain::begin_acquisition(image, p, priority).into()
    }

    fn begin_release(&mut self, image: &mut [u8], p: u32) -> Said {
        plain::begin_release(image, p).into()
    }

    fn step(&mut self, image: &mut [u8], p: u32) -> Said {
        plain::step(image, p).into()
    }

    fn take_log(&mut self, image: &mut [u8], log: &mut [u8]) -> Said {
        plain::take_log(image, log).into()
    }

    fn turn(&mut self, image: &mut [u8], last: &mut u32) -> Said {
        plain::turn(image, last).into()
    }
}
