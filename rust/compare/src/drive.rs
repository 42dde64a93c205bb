//! Driving two desks over the same cases.

use std::panic::{catch_unwind, AssertUnwindSafe};

use cases::{small_drafts, Call, Coverage, Kind, Rng, Stream};

use crate::account::{shrink, Difference};
use crate::{Desk, Lent, Said};

/// The answer to a turn where nobody can step.
const NOBODY: u32 = 9;

/// What one desk made of one call.
#[derive(Clone, PartialEq, Eq, Debug)]
pub(crate) struct Outcome {
    /// What it said; none if it panicked.
    pub said: Option<Said>,
    /// The whole buffer afterwards.
    pub image: Vec<u8>,
    /// The buffer for the log, or the turn marker, afterwards.
    pub lent: Lent,
}

/// Put one call to one desk. What it said; none if it panicked.
fn put(desk: &mut dyn Desk, image: &mut [u8], lent: &mut Lent, call: &Call) -> Option<Said> {
    catch_unwind(AssertUnwindSafe(|| desk.call(image, lent, call))).ok()
}

/// Put one call to one desk on a copy of this image.
pub(crate) fn outcome(desk: &mut dyn Desk, before: &[u8], call: &Call) -> Outcome {
    let mut image = before.to_vec();
    let mut lent = Lent::default();
    let said = put(desk, &mut image, &mut lent, call);
    Outcome { said, image, lent }
}

/// Whether two outcomes are the same, and keep the rules that hold whatever the desks agree on: a
/// refused call, and a turn where nobody can step, change nothing that they are lent; and owner's
/// bytes never change.
pub(crate) fn agree(before: &[u8], call: &Call, left: &Outcome, right: &Outcome) -> bool {
    left == right && keeps(before, call, left.said, &left.image, &left.lent)
}

fn keeps(before: &[u8], call: &Call, said: Option<Said>, image: &[u8], lent: &Lent) -> bool {
    let Some(said) = said else { return false };
    if said.refused || said.number == NOBODY {
        return image == before && lent.is_as_given(call);
    }
    // An accepted call leaves a sound image, whose trailer tells where the owner's bytes end.
    let Some((front, trailer)) = image.split_last_chunk::<12>() else {
        return false;
    };
    let n = usize::from(u16::from_be_bytes([trailer[2], trailer[3]]));
    match front.len().checked_sub(16 * n + 256) {
        Some(owner) => image[..owner] == before[..owner],
        None => false,
    }
}

/// Drive two desks over the cases of this seed until at least so many calls were made, and compare
/// after each. The left desk's images decide how histories go on and its replies what was covered,
/// so the more trusted one stands left.
///
/// At the first difference, and if a desk panics, an account of it comes back.
pub fn drive(
    left: &mut dyn Desk,
    right: &mut dyn Desk,
    seed: u64,
    calls: u64,
) -> Result<Coverage, Box<Difference>> {
    let mut coverage = Coverage::new();
    let mut stream = Stream::new(seed);
    let mut before = Vec::new();
    let mut left_image = Vec::new();
    let mut right_image = Vec::new();
    while coverage.calls() < calls {
        let mut case = stream.next_case();
        if let Kind::Damaged(damage) = case.kind {
            coverage.damaged(damage, &case.image);
        }
        left_image.clone_from(&case.image);
        right_image.clone_from(&case.image);
        let mut left_lent = Lent::default();
        let mut right_lent = Lent::default();
        while let Some(call) = case.next_call(&left_image, left_lent.last) {
            before.clone_from(&left_image);
            let left_said = put(left, &mut left_image, &mut left_lent, &call);
            let right_said = put(right, &mut right_image, &mut right_lent, &call);
            let same = left_said == right_said
                && left_image == right_image
                && left_lent == right_lent
                && keeps(&before, &call, left_said, &left_image, &left_lent);
            if !same {
                return Err(Box::new(shrink(
                    left,
                    right,
                    &before,
                    &call,
                    case.kind,
                    coverage.calls() + 1,
                )));
            }
            let refused = left_said.and_then(Said::refusal);
            coverage.call(case.kind, &before, &call, refused);
        }
    }
    Ok(coverage)
}

/// Try every value of every byte: small tables of this seed, one at each stage, each byte of which
/// takes each value in turn, with calls for both modules on each. The 256 log bytes take only some
/// values. Says how many calls were made.
pub fn sweep(left: &mut dyn Desk, right: &mut dyn Desk, seed: u64) -> Result<u64, Box<Difference>> {
    let mut calls = 0;
    for draft in small_drafts(&mut Rng::new(seed)) {
        let base = draft.bytes();
        let p = u32::from(draft.focus);
        let list = [
            Call::Step { p },
            Call::Step { p: 3 - p },
            Call::BeginAcquisition { p, priority: 77 },
            Call::BeginRelease { p },
            Call::TakeLog {
                buffer: vec![0xc3; 256],
            },
            Call::Turn { last: 3 - p },
        ];
        let log = base.len() - 268..base.len() - 12;
        for at in 0..base.len() {
            let values: Vec<u8> = if log.contains(&at) {
                vec![0, 1, 2, 3, 255]
            } else {
                (0..=255).collect()
            };
            for value in values {
                let mut before = base.clone();
                before[at] = value;
                for call in &list {
                    calls += 1;
                    let outcomes = [outcome(left, &before, call), outcome(right, &before, call)];
                    if !agree(&before, call, &outcomes[0], &outcomes[1]) {
                        let kind = Kind::Strange;
                        return Err(Box::new(shrink(left, right, &before, call, kind, calls)));
                    }
                }
            }
        }
    }
    Ok(calls)
}
