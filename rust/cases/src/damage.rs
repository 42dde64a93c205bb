//! Damaged images: a sound one with exactly one named rule broken.

use crate::draft::*;
use crate::{Draft, Rng};

/// One way to damage a sound image.
#[derive(Clone, Copy, Debug)]
pub struct Damage {
    /// The rules that it breaks, by their names in [`reference::RULES`] and in their order: one,
    /// or two where a careless reader could take the image for sound only if both are broken.
    pub breaks: &'static [&'static str],
    /// On which side, or how.
    pub side: &'static str,
    /// Do it to a [draft that takes any damage](crate::damaging_draft); the buffer that comes out.
    pub apply: fn(Draft, &mut Rng) -> Vec<u8>,
}

const fn one(
    breaks: &'static [&'static str],
    side: &'static str,
    apply: fn(Draft, &mut Rng) -> Vec<u8>,
) -> Damage {
    Damage {
        breaks,
        side,
        apply,
    }
}

const TRAILER: &[&str] = &["the buffer holds a trailer"];
const ROOM: &[&str] = &["the buffer holds all the trailer points back to"];
const EDITION: &[&str] = &["edition is 1"];
const N: &[&str] = &["n is 1 to 64"];
const ZEROS: &[&str] = &["trailer bytes 6 and 7 are zero"];
const FIVE: &[&str] = &["record byte 5 is zero"];
const FIFTEEN: &[&str] = &["record byte 15 is zero"];
const DISTANCE: &[&str] = &["distance is 16n + 256"];
const LOG_LENGTH: &[&str] = &["log length is 0 to 256"];
const ENTRIES: &[&str] = &["log entries are 1 to n"];
const REST: &[&str] = &["the rest of the log is 0"];
const W_POINTER_RANGE: &[&str] = &["w's pointer is 0 to n"];
const LINK_POINTER_RANGE: &[&str] = &["the link's pointer is 0 to n"];
const PREV_RANGE: &[&str] = &["prev is 0 to n"];
const S_RANGE: &[&str] = &["s is 0 to n"];
const LOCK_WORD: &[&str] = &["the lock word is 0 to n"];
const W_MARK_RANGE: &[&str] = &["w's mark is 0 or 1"];
const LINK_MARK_RANGE: &[&str] = &["the link's mark is 0 or 1"];
const LOCKED_RANGE: &[&str] = &["Locked is 0 or 1"];
const STAGE_RANGE: &[&str] = &[reference::STAGE_RULE];
const OWN_IDLE: &[&str] = &["own priority is 0 at stage 0"];
const OWN_BUSY: &[&str] = &["own priority is 1 to 254 elsewhere"];
const PREV_NIL: &[&str] = &["prev isn't 0 at stages 4 to 10"];
const W_NIL: &[&str] = &["w's pointer isn't 0 at stage 7"];
const S_NIL: &[&str] = &["s isn't 0 at stages 17 and 18"];
const N_AND_DISTANCE: &[&str] = &["n is 1 to 64", "distance is 16n + 256"];
const ROOM_AND_DISTANCE: &[&str] = &[
    "the buffer holds all the trailer points back to",
    "distance is 16n + 256",
];
const ROOM_AND_N: &[&str] = &[
    "the buffer holds all the trailer points back to",
    "n is 1 to 64",
];

/// Every damage: each rule, each side of it.
pub const DAMAGES: &[Damage] = &[
    // The buffer holds a trailer and all it points back to.
    one(TRAILER, "no byte at all", |draft, _| cut(draft, 0)),
    one(TRAILER, "one byte short", |draft, _| cut(draft, 11)),
    one(TRAILER, "some bytes short", |draft, rng| {
        cut(draft, rng.within(1, 10) as usize)
    }),
    one(ROOM, "one byte short", |draft, _| {
        let keep = 16 * draft.records.len() + 267;
        cut(draft, keep)
    }),
    one(ROOM, "one record short", |draft, _| {
        let keep = 16 * draft.records.len() + 252;
        cut(draft, keep)
    }),
    one(ROOM, "the trailer's length short", |draft, _| {
        let keep = 16 * draft.records.len() + 256;
        cut(draft, keep)
    }),
    one(ROOM, "the trailer alone", |draft, _| cut(draft, 12)),
    one(ROOM, "somewhere short", |draft, rng| {
        let keep = rng.within(12, 16 * draft.records.len() as u64 + 267);
        cut(draft, keep as usize)
    }),
    one(ROOM_AND_DISTANCE, "the farthest distance", |draft, _| {
        back(draft, u32::MAX)
    }),
    one(
        ROOM_AND_DISTANCE,
        "so far that 12 more wrap at 32 bits",
        |draft, _| back(draft, u32::MAX - 11),
    ),
    one(
        ROOM_AND_DISTANCE,
        "byte 8 of the distance set",
        |draft, rng| {
            let distance = draft.distance | u32::from(rng.byte(1, 255)) << 24;
            back(draft, distance)
        },
    ),
    one(
        ROOM_AND_DISTANCE,
        "byte 9 of the distance set",
        |draft, rng| {
            let distance = draft.distance | u32::from(rng.byte(1, 255)) << 16;
            back(draft, distance)
        },
    ),
    // Edition.
    one(EDITION, "0", |draft, _| edition(draft, 0)),
    one(EDITION, "2", |draft, _| edition(draft, 2)),
    one(EDITION, "some other", |draft, rng| {
        let number = rng.byte(3, 255);
        edition(draft, number)
    }),
    // n.
    one(N, "0, distance to match", |mut draft, _| {
        draft.records.clear();
        draft.n = 0;
        draft.distance = 256;
        draft.bytes()
    }),
    one(N, "65, distance to match", |draft, _| many(draft, 65)),
    one(N, "256 and more, distance to match", |draft, rng| {
        let n = 256 + rng.within(0, 64);
        many(draft, n as u16)
    }),
    one(ROOM_AND_N, "65,535, distance to match", |mut draft, _| {
        draft.n = 65_535;
        draft.distance = 16 * 65_535 + 256;
        draft.bytes()
    }),
    one(
        N_AND_DISTANCE,
        "byte 2 set, distance of the low byte",
        |mut draft, rng| {
            draft.n += 256 * rng.within(1, 255) as u16;
            draft.bytes()
        },
    ),
    one(N_AND_DISTANCE, "0, distance kept", |mut draft, _| {
        draft.n = 0;
        draft.bytes()
    }),
    // Zeros.
    one(ZEROS, "byte 6", |mut draft, rng| {
        draft.zeros[0] = nonzero(rng);
        draft.bytes()
    }),
    one(ZEROS, "byte 7", |mut draft, rng| {
        draft.zeros[1] = nonzero(rng);
        draft.bytes()
    }),
    one(FIVE, "not zero", |draft, rng| {
        let byte = nonzero(rng);
        put(draft, BYTE_5, byte)
    }),
    one(FIFTEEN, "not zero", |draft, rng| {
        let byte = nonzero(rng);
        put(draft, BYTE_15, byte)
    }),
    // Distance.
    one(DISTANCE, "one less", |draft, _| {
        let distance = draft.distance - 1;
        back(draft, distance)
    }),
    one(DISTANCE, "one more, and room", |mut draft, rng| {
        draft.owner.extend(rng.bytes(1));
        let distance = draft.distance + 1;
        back(draft, distance)
    }),
    one(DISTANCE, "a record less", |draft, _| {
        let distance = draft.distance - 16;
        back(draft, distance)
    }),
    one(DISTANCE, "a record more, and room", |mut draft, rng| {
        draft.owner.extend(rng.bytes(16));
        let distance = draft.distance + 16;
        back(draft, distance)
    }),
    one(
        DISTANCE,
        "the trailer's length more, and room",
        |mut draft, rng| {
            draft.owner.extend(rng.bytes(12));
            let distance = draft.distance + 12;
            back(draft, distance)
        },
    ),
    one(DISTANCE, "0", |draft, _| back(draft, 0)),
    one(DISTANCE, "the low byte alone", |draft, _| {
        let distance = draft.distance & 0xff;
        back(draft, distance)
    }),
    one(DISTANCE, "n one more, distance kept", |mut draft, _| {
        if draft.n == 64 {
            drop_last_record(&mut draft);
        }
        draft.n += 1;
        draft.bytes()
    }),
    one(DISTANCE, "n one less, distance kept", |mut draft, _| {
        if draft.n == 1 {
            draft = Draft::fresh(2);
        }
        draft.n -= 1;
        draft.bytes()
    }),
    // The log.
    one(LOG_LENGTH, "257", |draft, _| log_length(draft, 257)),
    one(LOG_LENGTH, "65,535", |draft, _| log_length(draft, 65_535)),
    one(LOG_LENGTH, "a right one and 512", |draft, _| {
        let length = draft.log_length | 512;
        log_length(draft, length)
    }),
    one(LOG_LENGTH, "a right one and 32,768", |draft, _| {
        let length = draft.log_length | 32_768;
        log_length(draft, length)
    }),
    one(ENTRIES, "the first is 0", |draft, _| entry(draft, false, 0)),
    one(ENTRIES, "the last is 0", |draft, _| entry(draft, true, 0)),
    one(ENTRIES, "the first is n + 1", |draft, _| {
        let above = draft.n as u8 + 1;
        entry(draft, false, above)
    }),
    one(ENTRIES, "the last is n + 1", |draft, _| {
        let above = draft.n as u8 + 1;
        entry(draft, true, above)
    }),
    one(ENTRIES, "one is 255", |draft, rng| {
        let last = rng.chance(1, 2);
        entry(draft, last, 255)
    }),
    one(ENTRIES, "the 256th is 0", |mut draft, _| {
        let focus = draft.focus;
        draft.log.fill(focus);
        draft.log[255] = 0;
        draft.log_length = 256;
        draft.bytes()
    }),
    one(ENTRIES, "the 256th is n + 1", |mut draft, _| {
        let focus = draft.focus;
        draft.log.fill(focus);
        draft.log[255] = draft.n as u8 + 1;
        draft.log_length = 256;
        draft.bytes()
    }),
    one(REST, "the first of it is an entry", |mut draft, _| {
        draft.log[usize::from(draft.log_length)] = draft.focus;
        draft.bytes()
    }),
    one(REST, "the last of it is an entry", |mut draft, _| {
        draft.log[255] = draft.focus;
        draft.bytes()
    }),
    one(REST, "one of it is no entry", |mut draft, rng| {
        let at = rng.within(u64::from(draft.log_length), 255) as usize;
        draft.log[at] = rng.byte(65, 255);
        draft.bytes()
    }),
    one(REST, "the first byte of an empty log", |mut draft, _| {
        draft.log.fill(0);
        draft.log_length = 0;
        draft.log[0] = draft.focus;
        draft.bytes()
    }),
    // Pointers.
    one(W_POINTER_RANGE, "n + 1", |draft, _| above(draft, W_POINTER)),
    one(W_POINTER_RANGE, "255", |draft, _| {
        put(draft, W_POINTER, 255)
    }),
    one(LINK_POINTER_RANGE, "n + 1", |draft, _| {
        above(draft, LINK_POINTER)
    }),
    one(LINK_POINTER_RANGE, "255", |draft, _| {
        put(draft, LINK_POINTER, 255)
    }),
    one(PREV_RANGE, "n + 1", |draft, _| above(draft, PREV)),
    one(PREV_RANGE, "255", |draft, _| put(draft, PREV, 255)),
    one(S_RANGE, "n + 1", |draft, _| above(draft, S)),
    one(S_RANGE, "255", |draft, _| put(draft, S, 255)),
    one(LOCK_WORD, "n + 1", |mut draft, _| {
        draft.lock_word = draft.n as u8 + 1;
        draft.bytes()
    }),
    one(LOCK_WORD, "255", |mut draft, _| {
        draft.lock_word = 255;
        draft.bytes()
    }),
    // Marks and Locked.
    one(W_MARK_RANGE, "2", |draft, _| put(draft, W_MARK, 2)),
    one(W_MARK_RANGE, "some other", |draft, rng| {
        let mark = rng.byte(3, 255);
        put(draft, W_MARK, mark)
    }),
    one(LINK_MARK_RANGE, "2", |draft, _| put(draft, LINK_MARK, 2)),
    one(LINK_MARK_RANGE, "some other", |draft, rng| {
        let mark = rng.byte(3, 255);
        put(draft, LINK_MARK, mark)
    }),
    one(LOCKED_RANGE, "2", |draft, _| put(draft, LOCKED, 2)),
    one(LOCKED_RANGE, "some other", |draft, rng| {
        let locked = rng.byte(3, 255);
        put(draft, LOCKED, locked)
    }),
    // Stage.
    one(STAGE_RANGE, "one above the last", |draft, rng| {
        at_stage(draft, rng, LAST_STAGE + 1)
    }),
    one(STAGE_RANGE, "255", |draft, rng| at_stage(draft, rng, 255)),
    one(STAGE_RANGE, "some other", |draft, rng| {
        let stage = rng.byte(LAST_STAGE + 2, 254);
        at_stage(draft, rng, stage)
    }),
    // Own priority.
    one(OWN_IDLE, "1", |draft, rng| own(draft, rng, 0, 1)),
    one(OWN_IDLE, "255", |draft, rng| own(draft, rng, 0, 255)),
    one(OWN_IDLE, "some other", |draft, rng| {
        let priority = rng.byte(2, 254);
        own(draft, rng, 0, priority)
    }),
    one(OWN_BUSY, "0", |draft, rng| {
        let stage = rng.byte(1, LAST_STAGE);
        own(draft, rng, stage, 0)
    }),
    one(OWN_BUSY, "255", |draft, rng| {
        let stage = rng.byte(1, LAST_STAGE);
        own(draft, rng, stage, 255)
    }),
    one(OWN_BUSY, "0 at stage 13", |draft, rng| {
        own(draft, rng, 13, 0)
    }),
    one(OWN_BUSY, "255 at stage 1", |draft, rng| {
        own(draft, rng, 1, 255)
    }),
    one(OWN_BUSY, "0 at stage 19", |draft, rng| {
        own(draft, rng, 19, 0)
    }),
    one(OWN_BUSY, "255 at stage 19", |draft, rng| {
        own(draft, rng, 19, 255)
    }),
    // What stages ask.
    one(PREV_NIL, "stage 4", |draft, rng| nil(draft, rng, 4, PREV)),
    one(PREV_NIL, "stage 5", |draft, rng| nil(draft, rng, 5, PREV)),
    one(PREV_NIL, "stage 6", |draft, rng| nil(draft, rng, 6, PREV)),
    one(PREV_NIL, "stage 7", |draft, rng| nil(draft, rng, 7, PREV)),
    one(PREV_NIL, "stage 8", |draft, rng| nil(draft, rng, 8, PREV)),
    one(PREV_NIL, "stage 9", |draft, rng| nil(draft, rng, 9, PREV)),
    one(PREV_NIL, "stage 10", |draft, rng| nil(draft, rng, 10, PREV)),
    one(W_NIL, "stage 7", |draft, rng| nil(draft, rng, 7, W_POINTER)),
    one(S_NIL, "stage 17", |draft, rng| nil(draft, rng, 17, S)),
    one(S_NIL, "stage 18", |draft, rng| nil(draft, rng, 18, S)),
];

fn nonzero(rng: &mut Rng) -> u8 {
    match rng.below(3) {
        0 => 1,
        1 => 255,
        _ => rng.byte(1, 255),
    }
}

/// Keep this many bytes at the end.
fn cut(draft: Draft, keep: usize) -> Vec<u8> {
    let bytes = Draft {
        owner: Vec::new(),
        ..draft
    }
    .bytes();
    bytes[bytes.len() - keep..].to_vec()
}

fn back(mut draft: Draft, distance: u32) -> Vec<u8> {
    draft.distance = distance;
    draft.bytes()
}

fn edition(mut draft: Draft, number: u8) -> Vec<u8> {
    draft.edition = number;
    draft.bytes()
}

/// More modules than there may be, all there.
fn many(mut draft: Draft, n: u16) -> Vec<u8> {
    let record = Draft::fresh(1).records[0];
    draft.records.resize(usize::from(n), record);
    draft.n = n;
    draft.distance = 16 * u32::from(n) + 256;
    draft.bytes()
}

/// One module less, with everything that named it mended.
fn drop_last_record(draft: &mut Draft) {
    let owner = std::mem::take(&mut draft.owner);
    *draft = Draft::fresh(draft.n as u8 - 1);
    draft.owner = owner;
}

fn log_length(mut draft: Draft, length: u16) -> Vec<u8> {
    draft.log_length = length;
    draft.bytes()
}

fn entry(mut draft: Draft, last: bool, value: u8) -> Vec<u8> {
    let at = if last {
        usize::from(draft.log_length) - 1
    } else {
        0
    };
    draft.log[at] = value;
    draft.bytes()
}

fn put(mut draft: Draft, at: usize, byte: u8) -> Vec<u8> {
    draft.focused()[at] = byte;
    draft.bytes()
}

fn above(draft: Draft, at: usize) -> Vec<u8> {
    let byte = draft.n as u8 + 1;
    put(draft, at, byte)
}

/// Bring the module in focus to a stage with all that the stage asks for.
fn bring(draft: &mut Draft, rng: &mut Rng, stage: u8) {
    let n = draft.n as u8;
    let own = draft.focused();
    own[STAGE] = stage;
    own[OWN_PRIORITY] = if stage == 0 { 0 } else { rng.byte(1, 254) };
    for at in [PREV, W_POINTER, S] {
        if own[at] == 0 {
            own[at] = rng.byte(1, n);
        }
    }
}

fn at_stage(mut draft: Draft, rng: &mut Rng, stage: u8) -> Vec<u8> {
    bring(&mut draft, rng, stage);
    draft.bytes()
}

fn own(mut draft: Draft, rng: &mut Rng, stage: u8, priority: u8) -> Vec<u8> {
    bring(&mut draft, rng, stage);
    put(draft, OWN_PRIORITY, priority)
}

fn nil(mut draft: Draft, rng: &mut Rng, stage: u8, at: usize) -> Vec<u8> {
    bring(&mut draft, rng, stage);
    put(draft, at, 0)
}

#[cfg(test)]
mod tests {
    use super::*;
    use crate::damaging_draft;

    #[test]
    fn every_damage_breaks_exactly_its_rules() {
        let mut rng = Rng::new(3);
        for damage in DAMAGES {
            for _ in 0..300 {
                let draft = damaging_draft(&mut rng);
                let bytes = (damage.apply)(draft, &mut rng);
                assert_eq!(
                    reference::broken_rules(&bytes),
                    damage.breaks,
                    "{}",
                    damage.side
                );
            }
        }
    }

    #[test]
    fn every_rule_is_broken_alone() {
        for rule in &reference::RULES {
            assert!(
                DAMAGES.iter().any(|damage| damage.breaks == [rule.name]),
                "{}",
                rule.name
            );
        }
    }
}
