//! The endless mix of cases.

use crate::history::{log_buffer, wrong_module, wrong_n, wrong_priority, History};
use crate::{damaging_draft, strange_draft, Call, Draft, Rng, DAMAGES};

/// What sort of case it is.
#[derive(Clone, Copy, PartialEq, Eq, Debug)]
pub enum Kind {
    /// Calls on a fresh table.
    History,
    /// A sound image that no history need reach.
    Strange,
    /// A sound image damaged in this way, a place in [`DAMAGES`].
    Damaged(usize),
    /// The first or the last bytes of a sound image.
    Cut,
    /// Random bytes.
    Noise,
    /// A sound image with one bit turned.
    Flipped,
}

/// A buffer and a list of calls on it.
#[derive(Clone, Debug)]
pub struct Case {
    /// What sort of case it is.
    pub kind: Kind,
    /// The buffer as it is before the first call.
    pub image: Vec<u8>,
    calls: Calls,
}

#[derive(Clone, Debug)]
enum Calls {
    History(Box<History>),
    Listed(std::vec::IntoIter<Call>),
}

impl Case {
    /// The next call, given the image and the turn marker that the calls so far have left; none at
    /// the end. Before the first turn the marker is no matter.
    pub fn next_call(&mut self, image: &[u8], last: u32) -> Option<Call> {
        match &mut self.calls {
            Calls::History(history) => history.next_call(image, last),
            Calls::Listed(calls) => calls.next(),
        }
    }
}

/// The endless mix of cases, always the same for the same seed.
#[derive(Clone, Debug)]
pub struct Stream {
    rng: Rng,
    cases: u64,
    damages: usize,
    cuts: usize,
}

/// Buffers of every length up to this one are tried in turn.
const LONGEST_CUT: usize = 320;

impl Stream {
    /// The mix of this seed.
    pub fn new(seed: u64) -> Stream {
        Stream {
            rng: Rng::new(seed),
            cases: 0,
            damages: 0,
            cuts: 0,
        }
    }

    /// The next case. Of 64 cases one is a history, by far the longest of them.
    pub fn next_case(&mut self) -> Case {
        let place = self.cases % 64;
        self.cases += 1;
        match place {
            0 => {
                let (history, image) = History::new(&mut self.rng);
                Case {
                    kind: Kind::History,
                    image,
                    calls: Calls::History(Box::new(history)),
                }
            }
            1..=31 => {
                let draft = strange_draft(&mut self.rng);
                self.on_draft(Kind::Strange, &draft, draft.bytes())
            }
            32..=47 => {
                let draft = damaging_draft(&mut self.rng);
                let damage = self.damages % DAMAGES.len();
                self.damages += 1;
                let image = (DAMAGES[damage].apply)(draft.clone(), &mut self.rng);
                self.on_draft(Kind::Damaged(damage), &draft, image)
            }
            48..=53 => self.cut(),
            54..=57 => self.noise(),
            _ => {
                let draft = strange_draft(&mut self.rng);
                let mut image = draft.bytes();
                // Half of them in the trailer, where each bit matters.
                let from = if self.rng.chance(1, 2) {
                    image.len() - 12
                } else {
                    0
                };
                let at = self.rng.within(from as u64, image.len() as u64 - 1) as usize;
                image[at] ^= 1 << self.rng.below(8);
                self.on_draft(Kind::Flipped, &draft, image)
            }
        }
    }

    /// The first or the last bytes of an image, every length in turn.
    fn cut(&mut self) -> Case {
        let draft = if self.rng.chance(1, 2) {
            let mut draft = Draft::fresh(1);
            draft.owner = vec![0; LONGEST_CUT];
            draft
        } else {
            let mut draft = strange_draft(&mut self.rng);
            let more = LONGEST_CUT.saturating_sub(draft.bytes().len());
            draft.owner.extend(vec![0; more]);
            draft
        };
        let keep = self.cuts % (LONGEST_CUT + 1);
        let bytes = draft.bytes();
        let image = if self.cuts / (LONGEST_CUT + 1) % 4 == 3 {
            bytes[..keep].to_vec()
        } else {
            bytes[bytes.len() - keep..].to_vec()
        };
        self.cuts += 1;
        self.on_draft(Kind::Cut, &draft, image)
    }

    /// Random bytes, now and then with a right trailer behind them.
    fn noise(&mut self) -> Case {
        let length = match self.rng.below(3) {
            0 => self.rng.within(0, 40),
            1 => self.rng.within(250, 330),
            _ => self.rng.within(0, 1400),
        };
        let mut image = self.rng.bytes(length as usize);
        let draft = strange_draft(&mut self.rng);
        if self.rng.chance(1, 2) {
            let trailer = Draft::fresh(draft.n as u8).bytes();
            image.extend(&trailer[trailer.len() - 12..]);
        }
        self.on_draft(Kind::Noise, &draft, image)
    }

    /// A few calls on an image made from this draft.
    fn on_draft(&mut self, kind: Kind, draft: &Draft, image: Vec<u8>) -> Case {
        let rng = &mut self.rng;
        let n = u32::from(draft.n);
        let focus = u32::from(draft.focus);
        let held = usize::from(draft.log_length);
        let stage = draft.records[usize::from(draft.focus) - 1][0];
        let count = match kind {
            Kind::Strange => rng.within(1, 4),
            _ => rng.within(1, 2),
        };
        let mut calls = Vec::with_capacity(count as usize);
        for place in 0..count {
            // On sound images the first call is mostly the natural one.
            let natural = place == 0 && kind == Kind::Strange && rng.chance(3, 4);
            let call = if natural {
                match stage {
                    0 => Call::BeginAcquisition {
                        p: focus,
                        priority: rng.within(1, 254) as u32,
                    },
                    13 => Call::BeginRelease { p: focus },
                    // More often in large tables, which are few, so that every n is met.
                    _ if rng.chance(if n < 10 { 1 } else { 3 }, 4) => turn_near(rng, n, focus),
                    _ => Call::Step { p: focus },
                }
            } else {
                let module = match rng.below(8) {
                    0 => wrong_module(rng, n),
                    1 => rng.within(1, u64::from(n)) as u32,
                    _ => focus,
                };
                match rng.below(20) {
                    0..=3 => Call::BeginAcquisition {
                        p: module,
                        priority: match rng.below(3) {
                            0 => wrong_priority(rng),
                            1 => rng.pick(&[1, 254]),
                            _ => rng.within(1, 254) as u32,
                        },
                    },
                    4..=6 => Call::BeginRelease { p: module },
                    7..=11 => Call::Step { p: module },
                    12..=14 => {
                        let length = match rng.below(6) {
                            0 => held,
                            1 => held.saturating_sub(1),
                            2 => held + 1,
                            3 => 0,
                            _ => rng.within(0, 300) as usize,
                        };
                        Call::TakeLog {
                            buffer: log_buffer(rng, length),
                        }
                    }
                    15 => Call::SetUp {
                        n: set_up_number(rng, image.len()),
                    },
                    16 => Call::Turn {
                        last: wrong_module(rng, n),
                    },
                    _ => turn_near(rng, n, focus),
                }
            };
            calls.push(call);
        }
        Case {
            kind,
            image,
            calls: Calls::Listed(calls.into_iter()),
        }
    }
}

/// A turn whose marker is a module: the one before that in focus around the table, that itself, the
/// last, or any.
fn turn_near(rng: &mut Rng, n: u32, focus: u32) -> Call {
    let last = match rng.below(6) {
        0..=2 if focus > 1 => focus - 1,
        0..=3 => n,
        4 => focus,
        _ => rng.within(1, u64::from(n)) as u32,
    };
    Call::Turn { last }
}

/// A number of modules for a set-up: any, wrong, the most that fit or one more.
fn set_up_number(rng: &mut Rng, length: usize) -> u32 {
    let fit = length.saturating_sub(268) / 16;
    match rng.below(5) {
        0 => wrong_n(rng),
        1 => (fit as u32).clamp(1, 64),
        2 => (fit as u32 + 1).clamp(1, 64),
        3 => 1,
        _ => rng.within(1, 64) as u32,
    }
}
