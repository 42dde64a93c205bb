//! Hold the plain desk against the reference.
//!
//! `compare [--seed S] [--calls N]` drives both over at least N calls of the cases of seed S,
//! prints how often each class of case was met, and fails if the two differ anywhere or if a class
//! was never met. A program for another desk is as short as this one.

use std::process::ExitCode;

fn main() -> ExitCode {
    compare::run(&mut compare::ReferenceDesk, &mut compare::PlainDesk)
}
