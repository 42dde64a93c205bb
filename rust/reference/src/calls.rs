//! The five calls and the turn.

use crate::rules::{Rule, RULES};
use crate::sheet::{table_length, Field, Sheet, LOG_BYTES, MOST_MODULES};
use crate::stages::{carry_out, row_for, Row, STAGE_TABLE};
use crate::Reply;

/// The rules and the rows by which the calls are carried out.
///
/// The calls of this package go by [`RULEBOOK`]. Another book, with a rule or a row altered, is of
/// use only to prove that a comparison would notice, and to go on as a desk of before a request.
#[derive(Clone, Copy, Debug)]
pub struct Rulebook<'a> {
    /// The rules of a sound image.
    pub rules: &'a [Rule],
    /// The stage table.
    pub rows: &'a [Row],
}

/// The rules and the stage table of document 01, with R-1 of document 02.
pub const RULEBOOK: Rulebook<'static> = Rulebook {
    rules: &RULES,
    rows: &STAGE_TABLE,
};

/// The lowest number that applies.
fn lowest(refusals: &[(u8, bool)]) -> Option<Reply> {
    refusals
        .iter()
        .filter(|(_, applies)| *applies)
        .map(|(number, _)| *number)
        .min()
        .map(Reply::Refused)
}

/// The first in the list that applies, where a request has an order of its own.
fn earliest(refusals: &[(u8, bool)]) -> Option<Reply> {
    refusals
        .iter()
        .find(|(_, applies)| *applies)
        .map(|(number, _)| Reply::Refused(*number))
}

/// The image as a call finds it: its sheet, and whether it is sound.
struct Found {
    sheet: Sheet,
    sound: bool,
}

impl Found {
    /// The module that `p` names, if the image is sound and has it.
    fn module(&self, p: u32) -> Option<u16> {
        let known = self.sound && (1..=self.sheet.n()).contains(&p);
        known.then_some(p as u16)
    }

    /// The stage of the module that `p` names.
    fn stage(&self, p: u32) -> Option<u16> {
        self.module(p)
            .map(|module| self.sheet.get(Field::Stage, module))
    }

    /// Refusal 1: image unsound.
    fn unsound(&self) -> (u8, bool) {
        (1, !self.sound)
    }

    /// Refusal 2: module number 0 or above n.
    fn unknown(&self, p: u32) -> (u8, bool) {
        (2, self.sound && self.module(p).is_none())
    }
}

impl Rulebook<'_> {
    fn find(&self, image: &[u8]) -> Found {
        let sheet = Sheet::read(image);
        let sound = self.rules.iter().all(|rule| (rule.kept)(&sheet));
        Found { sheet, sound }
    }

    /// Set up a fresh table of `n` modules at the end of the buffer. It looks at no earlier byte;
    /// owner's bytes in front stay.
    pub fn set_up(&self, image: &mut [u8], n: u32) -> Reply {
        let refusals = [
            (7, !(1..=MOST_MODULES as u32).contains(&n)),
            (8, (image.len() as u64) < table_length(n)),
        ];
        if let Some(refused) = lowest(&refusals) {
            return refused;
        }
        Sheet::fresh(n, image.len()).write(image);
        Reply::answered(0)
    }

    /// Begin an acquisition for module `p`: idle only; writes the given priority as own priority
    /// and into the record; stage 1.
    pub fn begin_acquisition(&self, image: &mut [u8], p: u32, priority: u32) -> Reply {
        let mut found = self.find(image);
        let refusals = [
            found.unsound(),
            found.unknown(p),
            (3, !(1..=254).contains(&priority)),
            (4, found.stage(p).is_some_and(|stage| stage != 0)),
        ];
        if let Some(refused) = lowest(&refusals) {
            return refused;
        }
        let module = p as u16;
        let sheet = &mut found.sheet;
        sheet.set(Field::OwnPriority, module, priority as u16);
        sheet.set(Field::RecordPriority, module, priority as u16);
        sheet.set(Field::Stage, module, 1);
        sheet.write(image);
        Reply::answered(0)
    }

    /// Begin a release for module `p`: stage 13 only; stage 14.
    pub fn begin_release(&self, image: &mut [u8], p: u32) -> Reply {
        let mut found = self.find(image);
        let refusals = [
            found.unsound(),
            found.unknown(p),
            (4, found.stage(p).is_some_and(|stage| stage != 13)),
        ];
        if let Some(refused) = lowest(&refusals) {
            return refused;
        }
        found.sheet.set(Field::Stage, p as u16, 14);
        found.sheet.write(image);
        Reply::answered(0)
    }

    /// Take one step for module `p`: exactly one row of the stage table.
    pub fn step(&self, image: &mut [u8], p: u32) -> Reply {
        let mut found = self.find(image);
        let row = found
            .module(p)
            .and_then(|module| row_for(self.rows, &found.sheet, module));
        let full = found.sheet.log_length() >= LOG_BYTES;
        let refusals = [
            found.unsound(),
            found.unknown(p),
            (4, found.module(p).is_some() && row.is_none()),
            (5, row.is_some_and(Row::admits) && full),
        ];
        if let Some(refused) = lowest(&refusals) {
            return refused;
        }
        let Some(row) = row else {
            // Without a row one of the numbers 1, 2 and 4 applies.
            return Reply::Refused(4);
        };
        carry_out(row, &mut found.sheet, p as u16);
        found.sheet.write(image);
        if row.admits() {
            Reply::admitted(p as u8)
        } else {
            Reply::answered(row.answer)
        }
    }

    /// Hand out a turn. Of the modules that are not at stage 0 or 13 the one takes a step that comes
    /// soonest after the marker around the table, where the marker's own module comes last; the
    /// marker then holds it. If nobody can step, the answer is 9 and the marker stays. A refused
    /// turn changes neither.
    pub fn turn(&self, image: &mut [u8], marker: &mut u32) -> Reply {
        let found = self.find(image);
        let refusals = [found.unsound(), (10, found.module(*marker).is_none())];
        if let Some(refused) = earliest(&refusals) {
            return refused;
        }
        let (n, last) = (found.sheet.n(), *marker);
        let places_after = |p: &u32| (p + n - last - 1) % n;
        let next = (1..=n)
            .filter(|p| {
                found
                    .stage(*p)
                    .is_some_and(|stage| ![0, 13].contains(&stage))
            })
            .min_by_key(places_after);
        let Some(next) = next else {
            return Reply::answered(9);
        };
        let reply = self.step(image, next);
        if let Reply::Answered { .. } = reply {
            *marker = next;
        }
        reply
    }

    /// Take the log: it is written into the first bytes of the log buffer, whose others stay, and
    /// the held log becomes empty and zero.
    pub fn take_log(&self, image: &mut [u8], log: &mut [u8]) -> Reply {
        let mut found = self.find(image);
        let length = found.sheet.log_length();
        let refusals = [found.unsound(), (6, found.sound && log.len() < length)];
        if let Some(refused) = lowest(&refusals) {
            return refused;
        }
        for (byte, entry) in log.iter_mut().zip(&found.sheet.log()[..length]) {
            *byte = *entry;
        }
        found.sheet.empty_log();
        found.sheet.write(image);
        Reply::log_taken(length as u16)
    }
}

/// Set up a fresh table of `n` modules. Refusals: 7, n not 1 to 64; 8, buffer shorter than
/// 16n + 268.
pub fn set_up(image: &mut [u8], n: u32) -> Reply {
    RULEBOOK.set_up(image, n)
}

/// Begin an acquisition. Refusals: 1, image unsound; 2, module number 0 or above n; 3, priority
/// not 1 to 254; 4, not at stage 0.
pub fn begin_acquisition(image: &mut [u8], p: u32, priority: u32) -> Reply {
    RULEBOOK.begin_acquisition(image, p, priority)
}

/// Begin a release. Refusals: 1, image unsound; 2, module number 0 or above n; 4, not at stage 13.
pub fn begin_release(image: &mut [u8], p: u32) -> Reply {
    RULEBOOK.begin_release(image, p)
}

/// Take one step. Refusals: 1, image unsound; 2, module number 0 or above n; 4, at stage 0 or 13;
/// 5, the step would admit and the log holds 256.
pub fn step(image: &mut [u8], p: u32) -> Reply {
    RULEBOOK.step(image, p)
}

/// Hand out a turn. Refusals: 1, image unsound; then 10, marker not 1 to n; then 5, the step would
/// admit and the log holds 256.
pub fn turn(image: &mut [u8], marker: &mut u32) -> Reply {
    RULEBOOK.turn(image, marker)
}

/// Take the log. Refusals: 1, image unsound; 6, buffer for the log shorter than the log length.
pub fn take_log(image: &mut [u8], log: &mut [u8]) -> Reply {
    RULEBOOK.take_log(image, log)
}
