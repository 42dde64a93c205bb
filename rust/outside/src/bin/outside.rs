//! Hold the archive against the reference.
//!
//! `outside [--seed S] [--calls N] [--sweeps K]` drives both over at least N calls of the cases of
//! seed S and sweeps K times over every value of every byte, as the program `compare` does with the
//! plain desk.

use std::process::ExitCode;

fn main() -> ExitCode {
    compare::run(
        &mut compare::ReferenceDesk,
        &mut outside::ArchiveDesk::default(),
    )
}
