//! Input for the program `turns`.

use crate::Rng;

/// Random standard input for `turns`: sensible commands, refused ones and malformed lines.
///
/// The commands are not chosen by what went before, but small tables and few modules make most of
/// them count.
pub fn random_script(rng: &mut Rng) -> Vec<u8> {
    let mut script = Vec::new();
    let lines = rng.within(0, 400);
    let modules = rng.within(1, 4);
    if rng.chance(9, 10) {
        script.extend(format!("n {modules}\n").bytes());
    }
    let strange = rng.pick(&[0, 2, 20]);
    for _ in 0..lines {
        let module = if rng.chance(1, 40) {
            rng.pick(&[0, 5, 64, 65, 255, 256, 257, 999])
        } else {
            rng.within(1, modules)
        };
        if rng.chance(strange, 100) {
            script.extend(malformed(rng));
            script.push(b'\n');
        } else {
            let line = match rng.below(40) {
                0..=4 => {
                    let priority = match rng.below(8) {
                        0 => rng.pick(&[0, 255, 256, 999, 254]),
                        _ => rng.within(1, 9),
                    };
                    format!("a {module} {priority}")
                }
                5..=7 => format!("r {module}"),
                8 if rng.chance(1, 10) => {
                    format!("n {}", rng.pick(&[0, 1, 2, 3, 64, 65, 256, 999]))
                }
                _ => format!("s {module}"),
            };
            // Steps come in runs.
            let times = if line.starts_with('s') {
                rng.within(1, 4)
            } else {
                1
            };
            for _ in 0..times {
                script.extend(line.bytes());
                script.push(b'\n');
            }
        }
    }
    if script.ends_with(b"\n") && rng.chance(1, 3) {
        script.pop();
    }
    script
}

/// A malformed line, without its newline.
fn malformed(rng: &mut Rng) -> Vec<u8> {
    const LINES: [&[u8]; 28] = [
        b"",
        b" ",
        b"n",
        b"n ",
        b" n 1",
        b"n 1 ",
        b"n  1",
        b"n 01",
        b"n 00",
        b"s +1",
        b"s -1",
        b"s 1000",
        b"s 1\r",
        b"\r",
        b"s\t1",
        b"S 1",
        b"ss 1",
        b"s 1 1",
        b"s1",
        b"a 1",
        b"a 1 ",
        b"a 1 1 1",
        b"a 1  1",
        b"a 1 007",
        b"r 1\0",
        b"s 0000000000000001",
        b"a 1 1           ",
        b"s \xff",
    ];
    match rng.below(6) {
        0 => {
            let length = rng.within(0, 24) as usize;
            let mut line = rng.bytes(length);
            line.retain(|byte| *byte != b'\n');
            // Random bytes are no command, but make sure of it.
            line.insert(0, b'?');
            line
        }
        1 => vec![b'1'; rng.pick(&[15, 16, 17, 18, 100, 5000])],
        _ => rng.pick(&LINES).to_vec(),
    }
}
