//! The most stack that each export of an archive can take, held against limits.
//!
//! `objdump -dr --no-show-raw-insn libdesk.a | frames KIND FILE` takes the listing of an archive
//! for machines of this kind, x86_64 or aarch64, and the limits from the file. It prints for each
//! export the bytes, the chain of calls that takes them, and which functions of the C library are
//! called when how many bytes are taken; theirs come on top. It fails where a bound exceeds its
//! limit, a limit is missing or is for nothing, or something in the listing is not understood.

use std::io;
use std::process::ExitCode;

use outside::frames::{bounds, complaints, limits, Machine};

fn run(kind: &str, file: &str) -> Result<Vec<String>, String> {
    let machine = Machine::named(kind)?;
    let list = std::fs::read_to_string(file).map_err(|error| format!("{file}: {error}"))?;
    let listing = io::read_to_string(io::stdin()).map_err(|error| error.to_string())?;
    let bounds = bounds(machine, &listing)?;
    for bound in &bounds {
        println!("{bound}");
    }
    Ok(complaints(&bounds, &limits(machine, &list)?))
}

fn main() -> ExitCode {
    let words: Vec<_> = std::env::args().skip(1).collect();
    let [kind, file] = &words[..] else {
        eprintln!("usage: frames KIND FILE");
        return ExitCode::from(2);
    };
    let complaints = run(kind, file).unwrap_or_else(|error| vec![error]);
    for complaint in &complaints {
        println!("frames: {kind}: {complaint}");
    }
    ExitCode::from(!complaints.is_empty() as u8)
}
