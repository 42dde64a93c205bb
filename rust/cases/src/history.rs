//! Long histories from a fresh table.

use crate::strange::random_n;
use crate::{Call, Rng};

/// What a history is after.
#[derive(Clone, Copy, PartialEq, Eq, Debug)]
enum Aim {
    /// Many modules seeking at once, with everything that may go wrong in between.
    Crowd,
    /// As a crowd, but the log is never taken until it is full, and then now and then.
    FillTheLog,
    /// One module at a time goes all the way, so that lines grow long and in order.
    InTurn,
}

/// A long list of calls, each chosen by what the calls so far have left.
///
/// Most calls are *natural*: whatever the chosen module's stage asks for next. The others are
/// refused ones of every number, takings of the log and new set-ups. Modules are stepped in short
/// runs, and some fall asleep for a while, most often just before their swap, so that swaps come
/// too late and records leave in between. In some histories many steps are turns instead, for
/// whoever is next.
#[derive(Clone, Debug)]
pub struct History {
    rng: Rng,
    left: u32,
    aim: Aim,
    started: bool,
    n: u32,
    /// Priorities that modules of this history have; few, so that equals meet.
    priorities: Vec<u8>,
    asleep: u64,
    /// The module stepped at the moment, and how often still.
    run: (u32, u32),
    /// How often in a thousand calls something other than a natural call is made.
    odd: u64,
    /// How often in a thousand natural steps a turn is handed out instead.
    turns: u64,
}

/// The module numbers that no table has, and such as become a module's when cut to fewer bits.
pub(crate) fn wrong_module(rng: &mut Rng, n: u32) -> u32 {
    let some = rng.within(1, u64::from(n)) as u32;
    match rng.below(8) {
        0 | 1 => 0,
        2 | 3 => n + 1,
        4 => rng
            .pick(&[65, 128, 254, 255, 256, 257, 999, 65_535, 65_536])
            .max(n + 1),
        5 => u32::MAX,
        6 => some | rng.pick(&[1 << 8, 1 << 16, 1 << 24, 1 << 31]),
        _ => (rng.bits() as u32).max(n + 1),
    }
}

/// Priorities that nobody may have, and such as become one when cut to fewer bits.
pub(crate) fn wrong_priority(rng: &mut Rng) -> u32 {
    match rng.below(6) {
        0 => 0,
        1 => 255,
        2 => rng.pick(&[256, 999, u32::MAX, 65_535, 65_536]),
        3 => rng.within(1, 254) as u32 | rng.pick(&[1 << 8, 1 << 16, 1 << 31]),
        4 => u32::MAX - rng.below(3) as u32,
        _ => rng.within(255, 1000) as u32,
    }
}

/// Numbers of modules that no table has.
pub(crate) fn wrong_n(rng: &mut Rng) -> u32 {
    match rng.below(5) {
        0 => 0,
        1 => 65,
        2 => rng.within(1, 64) as u32 | rng.pick(&[1 << 8, 1 << 16, 1 << 28]),
        3 => u32::MAX,
        _ => rng.within(65, u64::from(u32::MAX)) as u32,
    }
}

/// A log buffer with something in it.
pub(crate) fn log_buffer(rng: &mut Rng, length: usize) -> Vec<u8> {
    let fill = rng.bits() as u8;
    vec![fill; length]
}

impl History {
    /// A new history, and the buffer that it starts on: its content and its owner's bytes are
    /// anything, the first call sets up.
    pub fn new(rng: &mut Rng) -> (History, Vec<u8>) {
        let aim = match rng.below(16) {
            0 => Aim::FillTheLog,
            1..=4 => Aim::InTurn,
            _ => Aim::Crowd,
        };
        let (n, left) = match aim {
            Aim::FillTheLog => (rng.within(1, 3), 4_000),
            Aim::InTurn => (u64::from(random_n(rng)), rng.within(100, 800)),
            Aim::Crowd => (u64::from(random_n(rng)), rng.within(50, 700)),
        };
        let priorities = match rng.below(4) {
            0 => vec![rng.byte(1, 254)],
            1 => {
                let low = rng.byte(1, 253);
                vec![low, low + 1]
            }
            2 => vec![1, 2, 253, 254],
            _ => (0..rng.within(2, 6)).map(|_| rng.byte(1, 254)).collect(),
        };
        let owner = crate::strange::random_owner(rng).len();
        let length = owner + 16 * n as usize + 268;
        let buffer = if rng.chance(1, 2) {
            vec![0; length]
        } else {
            rng.bytes(length)
        };
        let history = History {
            rng: Rng::new(rng.bits()),
            left: left as u32,
            aim,
            started: false,
            n: n as u32,
            priorities,
            asleep: 0,
            run: (1, 0),
            odd: rng.pick(&[0, 20, 100, 300]),
            turns: rng.pick(&[0, 100, 500, 1000]),
        };
        (history, buffer)
    }

    /// The next call on the image and with the turn marker that the calls so far have left; none at
    /// the end.
    pub fn next_call(&mut self, image: &[u8], last: u32) -> Option<Call> {
        self.left = self.left.checked_sub(1)?;
        if !self.started {
            self.started = true;
            return Some(Call::SetUp { n: self.n });
        }
        let look = Look::at(image)?;
        self.n = look.n;
        if self.rng.chance(self.odd, 1000) {
            return Some(self.odd_call(&look));
        }
        let full = look.log_length == 256;
        let takes = match self.aim {
            Aim::FillTheLog => full && self.rng.chance(1, 40),
            _ => self.rng.chance(1, 60),
        };
        if takes {
            return Some(self.taking(&look));
        }
        Some(match self.natural(&look) {
            Call::Step { .. } if self.rng.chance(self.turns, 1000) => self.turn(last),
            call => call,
        })
    }

    /// A turn by the marker that the last one left, or by another where there is none yet and now
    /// and then.
    fn turn(&mut self, last: u32) -> Call {
        let goes_on = (1..=self.n).contains(&last) && !self.rng.chance(1, 50);
        Call::Turn {
            last: if goes_on { last } else { self.some_module() },
        }
    }

    fn some_module(&mut self) -> u32 {
        self.rng.within(1, u64::from(self.n)) as u32
    }

    fn some_priority(&mut self) -> u32 {
        u32::from(self.rng.pick(&self.priorities))
    }

    fn natural(&mut self, look: &Look) -> Call {
        // Whoever is inside mostly stays a while, so that others line up.
        let inside = look.stage(self.run.0.min(self.n)) == 13;
        if self.run.1 == 0 || (inside && self.aim != Aim::FillTheLog && self.rng.chance(3, 4)) {
            self.run = self.new_run(look);
        }
        let module = self.run.0.min(self.n);
        self.run.1 -= 1;
        let stage = look.stage(module);
        if (stage == 9 && self.rng.chance(1, 4)) || self.rng.chance(1, 60) {
            self.asleep |= 1 << (module - 1);
            self.run.1 = 0;
        }
        if stage == 12 && look.locked(module) == 1 {
            self.run.1 = 0;
        }
        match stage {
            0 => Call::BeginAcquisition {
                p: module,
                priority: self.some_priority(),
            },
            13 => Call::BeginRelease { p: module },
            _ => Call::Step { p: module },
        }
    }

    /// Another module, and how often it is to go on.
    fn new_run(&mut self, look: &Look) -> (u32, u32) {
        let most = match self.aim {
            Aim::InTurn => 40,
            Aim::FillTheLog => 10,
            Aim::Crowd => 6,
        };
        let mut module = self.some_module();
        for _ in 0..6 {
            let waits = look.stage(module) == 12 && look.locked(module) == 1;
            let sleeps = self.asleep >> (module - 1) & 1 == 1;
            let stays =
                look.stage(module) == 13 && self.aim != Aim::FillTheLog && self.rng.chance(7, 8);
            if !(waits || sleeps || stays) {
                break;
            }
            // The first in the line can often go on.
            module = if look.lock_word != 0 && self.rng.chance(1, 4) {
                look.lock_word
            } else {
                self.some_module()
            };
        }
        if self.rng.chance(1, 12) {
            self.asleep = 0;
        }
        (module, self.rng.within(1, most) as u32)
    }

    /// Into a buffer that is longer, or just long enough, or short.
    fn taking(&mut self, look: &Look) -> Call {
        let length = match self.rng.below(5) {
            0 => look.log_length,
            1 => look.log_length + 1 + self.rng.below(20) as usize,
            2 => 256,
            3 => look.log_length.saturating_sub(1),
            _ => self.rng.within(0, 300) as usize,
        };
        Call::TakeLog {
            buffer: log_buffer(&mut self.rng, length),
        }
    }

    fn odd_call(&mut self, look: &Look) -> Call {
        let module = self.some_module();
        let wrong = wrong_module(&mut self.rng, self.n);
        match self.rng.below(18) {
            0 => Call::Step { p: wrong },
            1 => Call::BeginRelease { p: wrong },
            2 => Call::BeginAcquisition {
                p: wrong,
                priority: self.some_priority(),
            },
            3 => Call::BeginAcquisition {
                p: wrong,
                priority: wrong_priority(&mut self.rng),
            },
            4..=6 => Call::BeginAcquisition {
                p: module,
                priority: wrong_priority(&mut self.rng),
            },
            7 | 8 => Call::BeginAcquisition {
                p: module,
                priority: self.some_priority(),
            },
            9 | 10 => Call::BeginRelease { p: module },
            11 => Call::Step { p: module },
            12 if self.aim != Aim::FillTheLog => self.taking(look),
            13 => Call::SetUp {
                n: wrong_n(&mut self.rng),
            },
            // A new set-up starts a new history; seldom, and also too large for the buffer.
            14 if self.rng.chance(1, 8) && self.aim != Aim::FillTheLog => Call::SetUp {
                n: self.rng.within(1, 64) as u32,
            },
            15 if self.rng.chance(1, 8) => Call::SetUp { n: 64 },
            16 => Call::Turn { last: wrong },
            17 => Call::Turn { last: module },
            _ => Call::Step { p: module },
        }
    }
}

/// What a history needs to see of a sound image.
struct Look<'a> {
    records: &'a [u8],
    n: u32,
    lock_word: u32,
    log_length: usize,
}

impl Look<'_> {
    fn at(image: &[u8]) -> Option<Look<'_>> {
        let (front, trailer) = image.split_last_chunk::<12>()?;
        let n = u16::from_be_bytes([trailer[2], trailer[3]]);
        let distance = 16 * usize::from(n) + 256;
        let first = front.len().checked_sub(distance)?;
        Some(Look {
            records: &front[first..],
            n: u32::from(n),
            lock_word: u32::from(trailer[0]),
            log_length: usize::from(u16::from_be_bytes([trailer[4], trailer[5]])),
        })
    }

    fn stage(&self, module: u32) -> u8 {
        self.records[16 * (module as usize - 1)]
    }

    fn locked(&self, module: u32) -> u8 {
        self.records[16 * (module as usize - 1) + 13]
    }
}
