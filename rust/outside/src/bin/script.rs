//! `script S` prints random input for `turns`, always the same for the same seed S: sensible
//! commands, refused ones and malformed lines.

use std::io::{self, Write};
use std::process::ExitCode;

use cases::{random_script, Rng};

fn main() -> ExitCode {
    let Some(Ok(seed)) = std::env::args().nth(1).map(|word| word.parse()) else {
        eprintln!("usage: script S");
        return ExitCode::from(2);
    };
    match io::stdout().write_all(&random_script(&mut Rng::new(seed))) {
        Ok(()) => ExitCode::SUCCESS,
        Err(_) => ExitCode::FAILURE,
    }
}
