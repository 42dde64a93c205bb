//! Sound images that no history need reach.

use crate::draft::*;
use crate::{Draft, Rng};

/// How many modules a random table has: 1 to 64, small ones more often.
pub(crate) fn random_n(rng: &mut Rng) -> u8 {
    match rng.below(16) {
        0 | 1 => 1,
        2 | 3 => 2,
        4..=6 => 3,
        7..=9 => 4,
        10..=12 => rng.byte(5, 9),
        13 => rng.byte(10, 63),
        14 => 64,
        _ => rng.byte(1, 64),
    }
}

fn random_count(rng: &mut Rng) -> u16 {
    match rng.below(4) {
        0 => rng.pick(&[0, 1, 2, 254, 255, 256, 257]),
        1 => rng.pick(&[65_535, 65_534, 65_280, 65_279, 32_768, 32_767]),
        2 => 65_535,
        _ => rng.bits() as u16,
    }
}

/// 0 to n, the edges more often.
fn random_module(rng: &mut Rng, n: u8) -> u8 {
    match rng.below(4) {
        0 => 0,
        1 => n,
        _ => rng.byte(0, n),
    }
}

fn random_record(rng: &mut Rng, n: u8) -> [u8; RECORD] {
    let mut record = [0; RECORD];
    record[STAGE] = rng.byte(0, LAST_STAGE);
    for at in [PREV, W_POINTER, LINK_POINTER, S] {
        record[at] = random_module(rng, n);
    }
    for at in [W_MARK, LINK_MARK, LOCKED] {
        record[at] = rng.byte(0, 1);
    }
    for at in [W_COUNT, LINK_COUNT] {
        let count = random_count(rng);
        put_u16(&mut record, at, count);
    }
    record[OWN_PRIORITY] = match rng.below(4) {
        0 => rng.pick(&[1, 2, 253, 254]),
        _ => rng.byte(1, 254),
    };
    record[RECORD_PRIORITY] = match rng.below(4) {
        0 => rng.pick(&[0, 1, 254, 255]),
        1 => record[OWN_PRIORITY],
        _ => rng.bits() as u8,
    };
    keep_to_the_rules(rng, &mut record, n);
    record
}

/// Mend what the stage forbids: own priority, prev, w's pointer and s.
fn keep_to_the_rules(rng: &mut Rng, record: &mut [u8; RECORD], n: u8) {
    let stage = record[STAGE];
    if stage == 0 {
        record[OWN_PRIORITY] = 0;
    }
    if (4..=10).contains(&stage) && record[PREV] == 0 {
        record[PREV] = rng.byte(1, n);
    }
    if stage == 7 && record[W_POINTER] == 0 {
        record[W_POINTER] = rng.byte(1, n);
    }
    if (17..=18).contains(&stage) && record[S] == 0 {
        record[S] = rng.byte(1, n);
    }
}

/// A record priority at or near this priority.
fn near(rng: &mut Rng, priority: u8) -> u8 {
    match rng.below(6) {
        0 => priority,
        1 => priority.saturating_sub(1),
        2 => priority.saturating_add(1),
        3 => 255,
        4 => 0,
        _ => rng.bits() as u8,
    }
}

/// A sound image, every field random within the rules, with one module in focus for which odd
/// coincidences are sought out: prev, w's pointer, s, its own pointer or the lock word is the
/// module itself; its w equals prev's link, or differs from it in one part only; w is closed; the
/// record priorities that it will look at are at or next to its own priority; a count wraps; the
/// log is empty, full or all but full.
pub fn strange_draft(rng: &mut Rng) -> Draft {
    let n = random_n(rng);
    let mut draft = Draft::fresh(n);
    draft.focus = match rng.below(4) {
        0 => 1,
        1 => n,
        _ => rng.byte(1, n),
    };
    draft.owner = random_owner(rng);
    for module in 1..=n {
        // Tables of many modules are mostly fresh, to save time.
        if module == draft.focus || n < 12 || rng.chance(1, 8) {
            *draft.record(module) = random_record(rng, n);
        }
    }
    let me = draft.focus;
    // Coincidences.
    for at in [PREV, W_POINTER, LINK_POINTER, S] {
        if rng.chance(1, 4) {
            draft.focused()[at] = me;
        }
    }
    if rng.chance(1, 8) {
        let pointer = draft.focused()[PREV];
        draft.focused()[W_POINTER] = pointer;
    }
    let mut own = *draft.focused();
    keep_to_the_rules(rng, &mut own, n);
    *draft.focused() = own;
    draft.lock_word = match rng.below(4) {
        0 => 0,
        1 => me,
        _ => random_module(rng, n),
    };
    // Priorities next to its own.
    let own_priority = draft.focused()[OWN_PRIORITY];
    for at in [W_POINTER, PREV] {
        let other = draft.focused()[at];
        if other != 0 && rng.chance(3, 4) {
            draft.record(other)[RECORD_PRIORITY] = near(rng, own_priority);
        }
    }
    let prev = draft.focused()[PREV];
    if prev != 0 && rng.chance(3, 4) {
        let link = *draft.record(prev);
        remember(rng, &mut draft, &link);
    }
    random_log(rng, &mut draft);
    draft
}

/// w := this record's link, whole or but for one part.
fn remember(rng: &mut Rng, draft: &mut Draft, link: &[u8; RECORD]) {
    let n = draft.n as u8;
    let own = draft.focused();
    own[W_POINTER] = link[LINK_POINTER];
    own[W_MARK] = link[LINK_MARK];
    let count = get_u16(link, LINK_COUNT);
    put_u16(own, W_COUNT, count);
    match rng.below(10) {
        0 => own[W_POINTER] = rng.byte(0, n),
        1 => own[W_MARK] ^= 1,
        2 => put_u16(own, W_COUNT, count.wrapping_add(1)),
        3 => put_u16(own, W_COUNT, count.wrapping_sub(1)),
        4 => put_u16(own, W_COUNT, count ^ 0x0100),
        5 => put_u16(own, W_COUNT, !count),
        _ => {}
    }
    if own[STAGE] == 7 && own[W_POINTER] == 0 {
        own[W_POINTER] = rng.byte(1, n);
    }
}

fn random_log(rng: &mut Rng, draft: &mut Draft) {
    draft.log_length = match rng.below(8) {
        0 | 1 => 0,
        2 => 1,
        3 => 255,
        4 | 5 => 256,
        6 => 254,
        _ => rng.within(0, 256) as u16,
    };
    let n = draft.n as u8;
    let (focus, constant) = (draft.focus, rng.chance(1, 2));
    for entry in &mut draft.log[..usize::from(draft.log_length)] {
        *entry = if constant { focus } else { rng.byte(1, n) };
    }
}

/// Owner's bytes: often none, never many.
pub(crate) fn random_owner(rng: &mut Rng) -> Vec<u8> {
    match rng.below(4) {
        0 | 1 => Vec::new(),
        2 => {
            let length = rng.within(1, 20) as usize;
            rng.bytes(length)
        }
        _ => vec![rng.pick(&[0, 0xff, 1]); rng.within(1, 40) as usize],
    }
}

/// A strange image that any [damage](crate::DAMAGES) can be done to: it is sound, has at least
/// one log entry and one free log byte, and its focus is anywhere in the table.
pub fn damaging_draft(rng: &mut Rng) -> Draft {
    let mut draft = strange_draft(rng);
    if draft.log_length == 0 || draft.log_length == 256 {
        let n = draft.n as u8;
        draft.log_length = rng.pick(&[1, 2, 255]);
        draft.log.fill(0);
        for entry in &mut draft.log[..usize::from(draft.log_length)] {
            *entry = rng.byte(1, n);
        }
    }
    draft
}

/// For each stage a strange image of two modules, the one in focus at that stage.
pub fn small_drafts(rng: &mut Rng) -> Vec<Draft> {
    (0..=LAST_STAGE)
        .map(|stage| loop {
            let mut draft = strange_draft(rng);
            if draft.n == 2 && draft.focused()[STAGE] == stage {
                draft.owner = vec![0xa5];
                break draft;
            }
        })
        .collect()
}

#[cfg(test)]
mod tests {
    use super::*;

    #[test]
    fn strange_images_are_sound() {
        let mut rng = Rng::new(77);
        for _ in 0..20_000 {
            let bytes = strange_draft(&mut rng).bytes();
            assert_eq!(reference::broken_rules(&bytes), Vec::<&str>::new());
            let bytes = damaging_draft(&mut rng).bytes();
            assert_eq!(reference::broken_rules(&bytes), Vec::<&str>::new());
        }
    }
}
