//! The comparison as a program.

use std::process::ExitCode;
use std::time::Instant;

use crate::{drive, sweep, Desk};

const USAGE: &str = "usage: [--seed S] [--calls N] [--sweeps K]";

/// The seed and the numbers of calls and sweeps, as the command line has them.
fn arguments(mut given: impl Iterator<Item = String>) -> Option<(u64, u64, u64)> {
    let (mut seed, mut calls, mut sweeps) = (1, 3_000_000, 1);
    while let Some(name) = given.next() {
        let number = given.next()?.parse().ok()?;
        match name.as_str() {
            "--seed" => seed = number,
            "--calls" => calls = number,
            "--sweeps" => sweeps = number,
            _ => return None,
        }
    }
    Some((seed, calls, sweeps))
}

/// What a program that compares two desks does: read `[--seed S] [--calls N] [--sweeps K]` from
/// the command line, drive the desks, [sweep](crate::sweep) K times (default 1) over every value of
/// every byte, and print how often each class of case was met.
///
/// It fails, by code 1, if the two differ anywhere, after printing an account of it, or if some
/// class was never met; and by code 2 if the command line is not understood.
pub fn run(left: &mut dyn Desk, right: &mut dyn Desk) -> ExitCode {
    let Some((seed, calls, sweeps)) = arguments(std::env::args().skip(1)) else {
        eprintln!("{USAGE}");
        return ExitCode::from(2);
    };
    let start = Instant::now();
    let driven = drive(left, right, seed, calls).and_then(|coverage| {
        let mut swept = 0;
        for seed in (seed..).take(sweeps as usize) {
            swept += sweep(left, right, seed)?;
        }
        Ok((coverage, swept))
    });
    let (coverage, swept) = match driven {
        Ok(both) => both,
        Err(difference) => {
            print!("{difference}");
            println!("the desks differ, seed {seed}");
            return ExitCode::FAILURE;
        }
    };
    let classes = coverage.classes();
    for class in &classes {
        println!("{:>10}  {}", class.hits, class.name);
    }
    println!(
        "{} against {}: {} calls and {swept} of the sweep, seed {seed}, {} classes, {:.1} s, \
         no difference",
        left.name(),
        right.name(),
        coverage.calls(),
        classes.len(),
        start.elapsed().as_secs_f64()
    );
    let never = coverage.never_hit();
    for name in &never {
        println!("never met: {name}");
    }
    if coverage.strangers() > 0 {
        println!("{} refusals that no call should give", coverage.strangers());
    }
    if never.is_empty() && coverage.strangers() == 0 {
        ExitCode::SUCCESS
    } else {
        ExitCode::FAILURE
    }
}

#[cfg(test)]
mod tests {
    use super::arguments;

    fn given(line: &str) -> Option<(u64, u64, u64)> {
        arguments(line.split_whitespace().map(String::from))
    }

    #[test]
    fn the_command_line() {
        assert_eq!(given(""), Some((1, 3_000_000, 1)));
        assert_eq!(given("--seed 7"), Some((7, 3_000_000, 1)));
        assert_eq!(given("--calls 9 --sweeps 0 --seed 8"), Some((8, 9, 0)));
        for wrong in ["--seed", "--seed x", "7", "--call 7", "--calls -1"] {
            assert_eq!(given(wrong), None, "{wrong}");
        }
    }
}
