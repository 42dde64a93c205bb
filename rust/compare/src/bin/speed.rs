//! How many calls a second each desk takes.
//!
//! `speed` replays the same calls of a busy table of 1, 3, 16 and 64 modules, nearly all of them
//! accepted steps, on each desk; then the same with turns in place of the steps.

use std::hint::black_box;
use std::time::Instant;

use cases::{Call, Rng};
use compare::{Desk, Lent, PlainDesk, ReferenceDesk};

/// A table of n modules not yet set up, and what is lent besides.
fn lent(n: u32) -> (Vec<u8>, Lent) {
    let lent = Lent {
        log: vec![0; 256],
        last: n,
    };
    (vec![0; 16 * n as usize + 268], lent)
}

/// Calls on a busy table: whatever a random module's stage asks for, and the log taken in time.
/// Where a step is asked for, it may be a turn.
fn busy_calls(n: u32, calls: usize, turns: bool) -> Vec<Call> {
    let mut rng = Rng::new(u64::from(n));
    let (mut image, mut lent) = lent(n);
    let mut list = vec![Call::SetUp { n }];
    PlainDesk.call(&mut image, &mut lent, &list[0]);
    while list.len() < calls {
        let p = rng.within(1, u64::from(n)) as u32;
        let stage = image[16 * (p as usize - 1)];
        let call = if list.len().is_multiple_of(200) {
            Call::TakeLog {
                buffer: vec![0; 256],
            }
        } else {
            match stage {
                0 => Call::BeginAcquisition {
                    p,
                    priority: rng.within(1, 5) as u32,
                },
                13 => Call::BeginRelease { p },
                _ if turns => Call::Turn { last: lent.last },
                _ => Call::Step { p },
            }
        };
        PlainDesk.call(&mut image, &mut lent, &call);
        list.push(call);
    }
    list
}

fn main() {
    for (n, turns) in [1, 3, 16, 64].map(|n| [(n, false), (n, true)]).concat() {
        let calls = busy_calls(n, 200_000, turns);
        let desks: [&mut dyn Desk; 2] = [&mut ReferenceDesk, &mut PlainDesk];
        for desk in desks {
            let (mut image, mut lent) = lent(n);
            let mut best = f64::MAX;
            for _ in 0..3 {
                let start = Instant::now();
                for call in &calls {
                    black_box(desk.call(&mut image, &mut lent, call));
                }
                best = best.min(start.elapsed().as_secs_f64());
            }
            println!(
                "n = {n:>2}, {:<5} {:<10} {:>12.0} calls a second",
                if turns { "turns" } else { "steps" },
                desk.name(),
                calls.len() as f64 / best
            );
        }
    }
}
