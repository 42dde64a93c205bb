//! What the five calls and the turn cost, as seen by their caller.
//!
//! `measure time` prints for each call, on busy tables of 1, 8 and 64 modules, the time of a call to
//! the archive through `mokroshel`, and its ratio to the plain desk, to the same with the log's rest
//! compared as a block, and to one bare pass over the image's bytes (a comparison with a copy); then
//! that of a turn to the step that it takes. `measure stack` prints the most stack that each call
//! took, and a step at each stage. `measure lines N` prints N lines for `turns`.

use std::hint::black_box;
use std::process::ExitCode;
use std::time::Instant;

use cases::{Call, Rng};
use compare::Lent;
use mokroshel::{table_length, Image, Marker};
use outside::stack;

/// How many tables take turns, so that a call does not always find the same.
const TABLES: usize = 8;
const REPEATS: usize = 500;
const ROUNDS: usize = 41;
const NAMES: [&str; 6] = [
    "set up",
    "begin acquisition",
    "begin release",
    "step",
    "take log",
    "turn",
];

fn kind(call: &Call) -> usize {
    match call {
        Call::SetUp { .. } => 0,
        Call::BeginAcquisition { .. } => 1,
        Call::BeginRelease { .. } => 2,
        Call::Step { .. } => 3,
        Call::TakeLog { .. } => 4,
        Call::Turn { .. } => 5,
    }
}

fn archive(image: &mut [u8], lent: &mut Lent, call: &Call) {
    let mut image = Image::over(image);
    let _ = black_box(match call {
        Call::SetUp { n } => image.set_up(*n),
        Call::BeginAcquisition { p, priority } => image.begin_acquisition(*p, *priority),
        Call::BeginRelease { p } => image.begin_release(*p),
        Call::Step { p } => image.step(*p),
        Call::TakeLog { .. } => image.take_log(&mut lent.log),
        Call::Turn { last } => {
            let mut marker = Marker { last: *last };
            let said = image.turn(&mut marker);
            lent.last = marker.last;
            said
        }
    });
}

macro_rules! in_rust {
    ($desk:ident) => {
        fn $desk(image: &mut [u8], lent: &mut Lent, call: &Call) {
            let _ = black_box(match call {
                Call::SetUp { n } => $desk::set_up(image, *n),
                Call::BeginAcquisition { p, priority } => {
                    $desk::begin_acquisition(image, *p, *priority)
                }
                Call::BeginRelease { p } => $desk::begin_release(image, *p),
                Call::Step { p } => $desk::step(image, *p),
                Call::TakeLog { .. } => $desk::take_log(image, &mut lent.log),
                Call::Turn { last } => {
                    lent.last = *last;
                    $desk::turn(image, &mut lent.last)
                }
            });
        }
    };
}

in_rust!(plain);
in_rust!(plain_block);

/// A busy table: at each turn whatever a random module's stage asks for.
struct Busy {
    rng: Rng,
    n: u32,
    image: Vec<u8>,
}

impl Busy {
    fn new(n: u32) -> Busy {
        let mut image = vec![0; table_length(n as usize)];
        plain(&mut image, &mut Lent::default(), &Call::SetUp { n });
        let rng = Rng::new(u64::from(n));
        Busy { rng, n, image }
    }

    fn next_call(&mut self) -> Call {
        let p = self.rng.within(1, u64::from(self.n)) as u32;
        match self.image[16 * (p as usize - 1)] {
            0 => Call::BeginAcquisition {
                p,
                priority: self.rng.within(1, 5) as u32,
            },
            13 => Call::BeginRelease { p },
            _ => Call::Step { p },
        }
    }

    /// Tables on which a call of this kind is accepted, each with that call. A turn takes the very
    /// step that stands in its place.
    fn before(mut self, wanted: usize) -> Vec<(Vec<u8>, Call)> {
        let (n, mut found, mut lent) = (self.n, Vec::new(), room());
        for turn in 0.. {
            let call = match wanted {
                0 => Call::SetUp { n },
                4 => Call::TakeLog { buffer: Vec::new() },
                _ => match self.next_call() {
                    Call::Step { p: 1 } if wanted == 5 => Call::Turn { last: n },
                    Call::Step { p } if wanted == 5 => Call::Turn { last: p - 1 },
                    natural => natural,
                },
            };
            if turn % 10 == 0 && turn > 1000 && kind(&call) == wanted {
                found.push((self.image.clone(), call));
                if found.len() == TABLES {
                    break;
                }
            }
            let natural = self.next_call();
            plain(&mut self.image, &mut lent, &natural);
            if turn % 200 == 199 {
                let take = Call::TakeLog { buffer: Vec::new() };
                plain(&mut self.image, &mut lent, &take);
            }
        }
        found
    }
}

/// Room for any log.
fn room() -> Lent {
    let log = vec![0; 256];
    Lent { log, last: 0 }
}

/// Nanoseconds of one call, with the copy that restores its image.
fn time(before: &[(Vec<u8>, Call)], work: impl Fn(&mut [u8], &mut Lent, &(Vec<u8>, Call))) -> f64 {
    let mut images: Vec<_> = before.iter().map(|(image, _)| image.clone()).collect();
    let mut lent = room();
    let start = Instant::now();
    for _ in 0..REPEATS {
        for (image, (restored, _)) in images.iter_mut().zip(before) {
            black_box(&mut *image).copy_from_slice(restored);
        }
        for (image, given) in images.iter_mut().zip(before) {
            work(image, &mut lent, given);
        }
    }
    start.elapsed().as_nanos() as f64 / (REPEATS * before.len()) as f64
}

fn median(mut of: Vec<f64>) -> f64 {
    of.sort_by(f64::total_cmp);
    of[of.len() / 2]
}

fn times() {
    println!("                              ns                          ratio to");
    println!("call                n archive   plain   block    pass   plain   block    pass");
    for (wanted, name) in NAMES.iter().enumerate() {
        for n in [1, 8, 64] {
            let before = Busy::new(n).before(wanted);
            let mut all: [Vec<f64>; 5] = Default::default();
            for _ in 0..ROUNDS {
                all[0].push(time(&before, |_, _, _| ()));
                for (times, desk) in all[1..].iter_mut().zip([archive, plain, plain_block]) {
                    times.push(time(&before, |image, lent, (_, call)| {
                        desk(image, lent, call)
                    }));
                }
                all[4].push(time(&before, |image, _, (copy, _)| {
                    black_box(black_box(&*image) == black_box(&copy[..]));
                }));
            }
            let [restore, others @ ..] = all.map(median);
            let [archive, plain, block, pass] = others.map(|ns| ns - restore);
            print!("{name:<18}{n:>3}{archive:>8.1}{plain:>8.1}{block:>8.1}{pass:>8.1}");
            println!(
                "{:>8.2}{:>8.2}{:>8.2}",
                archive / plain,
                archive / block,
                archive / pass
            );
        }
    }
}

/// A turn to the archive against the step that it takes: of the module right after the marker, on
/// busy tables; and all around the table, where none but the marker's own module can step.
fn turns() {
    println!("a turn, as a ratio to the step that it takes:");
    println!("  n     next   around");
    for n in [1, 8, 64] {
        let mut alone = Busy::new(n);
        let begin = Call::BeginAcquisition { p: 1, priority: 9 };
        plain(&mut alone.image, &mut room(), &begin);
        let around = vec![(alone.image, Call::Turn { last: 1 }); TABLES];
        let ratios = [Busy::new(n).before(5), around].map(|turns| {
            let steps = turns.iter().map(|(image, turn)| {
                let mut lent = room();
                plain(&mut image.clone(), &mut lent, turn);
                (image.clone(), Call::Step { p: lent.last })
            });
            let steps: Vec<_> = steps.collect();
            let mut all: [Vec<f64>; 3] = Default::default();
            for _ in 0..ROUNDS {
                all[0].push(time(&steps, |_, _, _| ()));
                for (times, before) in all[1..].iter_mut().zip([&steps, &turns]) {
                    times.push(time(before, |image, lent, (_, call)| {
                        archive(image, lent, call)
                    }));
                }
            }
            let [restore, step, turn] = all.map(median);
            (turn - restore) / (step - restore)
        });
        println!("{n:>3}{:>9.2}{:>9.2}", ratios[0], ratios[1]);
    }
}

/// The stage of a module, by the layout. Only of sound images, and modules that they have.
fn stage(image: &[u8], p: u32) -> usize {
    let end = image.len();
    let n = usize::from(u16::from_be_bytes([image[end - 10], image[end - 9]]));
    image[end - table_length(n) + 16 * (p as usize - 1)].into()
}

/// The most stack of each call over histories, strange and damaged images; and that of a step at
/// each stage.
fn stacks() {
    const STAGES: usize = 20;
    let mut by_call = [(0, 0); NAMES.len()];
    let mut by_stage = [(0, 0); STAGES + 1];
    stack::of_cases(200_000, |call, before, (took, word)| {
        let note = |(most, calls): &mut (usize, usize)| {
            *most = took.max(*most);
            *calls += 1;
        };
        note(&mut by_call[kind(call)]);
        match (call, word) {
            (Call::Step { .. }, 0x8000_0001 | 0x8000_0002) => note(&mut by_stage[STAGES]),
            (Call::Step { p }, _) => note(&mut by_stage[stage(before, *p)]),
            _ => {}
        }
    });
    let line = |name: &str, (most, calls): (usize, usize)| {
        println!("{name:<18} {most:>5} bytes of stack at most, of {calls} calls");
    };
    for (name, most) in NAMES.iter().zip(by_call) {
        line(name, most);
    }
    println!("step, by the stage that its module is at:");
    for (stage, most) in by_stage[..STAGES].iter().enumerate() {
        line(&format!("stage {stage}"), *most);
    }
    line("unsound, no module", by_stage[STAGES]);
    let worst = by_stage[..STAGES].iter().map(|(most, _)| *most).max();
    let at_worst = (0..STAGES).filter(|stage| Some(by_stage[*stage].0) == worst);
    let at_worst: Vec<_> = at_worst.map(|stage| stage.to_string()).collect();
    println!("step at stage 9: {} bytes", by_stage[9].0);
    println!(
        "step at worst: {} bytes, stage {}",
        worst.unwrap_or(0),
        at_worst.join(" ")
    );
}

/// Lines for `turns`: a busy table of 8, set up anew before its log is full.
fn lines(count: usize) {
    let mut text = String::new();
    let mut busy = Busy::new(8);
    for line in 0..count {
        let call = match line % 1000 {
            0 => Call::SetUp { n: 8 },
            _ => busy.next_call(),
        };
        plain(&mut busy.image, &mut Lent::default(), &call);
        text += &match call {
            Call::SetUp { n } => format!("n {n}\n"),
            Call::BeginAcquisition { p, priority } => format!("a {p} {priority}\n"),
            Call::BeginRelease { p } => format!("r {p}\n"),
            Call::Step { p } => format!("s {p}\n"),
            Call::TakeLog { .. } | Call::Turn { .. } => {
                unreachable!("a busy table has no such call")
            }
        };
    }
    print!("{text}");
}

fn main() -> ExitCode {
    let words: Vec<_> = std::env::args().skip(1).collect();
    let words: Vec<_> = words.iter().map(String::as_str).collect();
    match words[..] {
        ["time"] => {
            times();
            println!();
            turns();
        }
        ["stack"] => stacks(),
        ["lines", count] if count.parse::<usize>().is_ok() => lines(count.parse().unwrap()),
        _ => {
            eprintln!("usage: measure time | stack | lines N");
            return ExitCode::from(2);
        }
    }
    ExitCode::SUCCESS
}
