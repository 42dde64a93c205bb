//! The program `turns`: one command a line, one answer a line.
//!
//! | Line | Call |
//! |---|---|
//! | `n N` | set up a fresh table of N modules |
//! | `a P R` | begin an acquisition for module P with priority R |
//! | `s P` | take one step for module P |
//! | `r P` | begin a release for module P |
//!
//! Each command prints its answer number, or `x`, a space and the refusal. A malformed line is no
//! call and prints `x 9`. At the end of input come the lock word and the held log.

use std::io::{self, BufRead, Write};

/// The image starts as this many zero bytes.
const IMAGE: usize = 1292;
/// A line over this length is malformed.
const LONGEST_LINE: usize = 16;

/// One command.
#[derive(Clone, Copy, PartialEq, Eq, Debug)]
enum Command {
    SetUp(u32),
    BeginAcquisition(u32, u32),
    Step(u32),
    BeginRelease(u32),
}

/// Decimal, 1 to 3 digits, no leading zero but `0` itself.
fn number(field: &[u8]) -> Option<u32> {
    match field {
        [b'0'] => Some(0),
        [b'1'..=b'9', rest @ ..] if rest.len() <= 2 && rest.iter().all(u8::is_ascii_digit) => {
            let digits = field.iter().map(|digit| u32::from(digit - b'0'));
            Some(digits.fold(0, |number, digit| 10 * number + digit))
        }
        _ => None,
    }
}

/// A line without its newline as a command; `None` if it is malformed.
fn command(line: &[u8]) -> Option<Command> {
    if line.len() > LONGEST_LINE {
        return None;
    }
    let mut fields = line.split(|&byte| byte == b' ');
    let name = fields.next()?;
    let first = number(fields.next()?)?;
    let command = match name {
        b"n" => Command::SetUp(first),
        b"a" => Command::BeginAcquisition(first, number(fields.next()?)?),
        b"s" => Command::Step(first),
        b"r" => Command::BeginRelease(first),
        _ => return None,
    };
    match fields.next() {
        None => Some(command),
        Some(_) => None,
    }
}

/// Read one line into `line`, without its newline and cut short once it is known to be too long.
/// Says whether there was one: only byte 10 ends a line, and what follows the last newline is a
/// line only if it is not empty.
fn read_line(input: &mut impl BufRead, line: &mut Vec<u8>) -> io::Result<bool> {
    line.clear();
    let mut any = false;
    loop {
        let chunk = match input.fill_buf() {
            Ok(chunk) => chunk,
            Err(error) if error.kind() == io::ErrorKind::Interrupted => continue,
            Err(error) => return Err(error),
        };
        if chunk.is_empty() {
            return Ok(any);
        }
        any = true;
        let newline = chunk.iter().position(|&byte| byte == b'\n');
        let part = &chunk[..newline.unwrap_or(chunk.len())];
        let room = LONGEST_LINE + 1 - line.len();
        line.extend_from_slice(&part[..part.len().min(room)]);
        let used = part.len() + usize::from(newline.is_some());
        input.consume(used);
        if newline.is_some() {
            return Ok(true);
        }
    }
}

/// Run the program: read all of `input`, write to `output`.
pub fn run(mut input: impl BufRead, mut output: impl Write) -> io::Result<()> {
    let mut image = [0; IMAGE];
    let mut line = Vec::with_capacity(LONGEST_LINE + 1);
    while read_line(&mut input, &mut line)? {
        let reply = match command(&line) {
            None => {
                writeln!(output, "x 9")?;
                continue;
            }
            Some(Command::SetUp(n)) => crate::set_up(&mut image, n),
            Some(Command::BeginAcquisition(p, priority)) => {
                crate::begin_acquisition(&mut image, p, priority)
            }
            Some(Command::Step(p)) => crate::step(&mut image, p),
            Some(Command::BeginRelease(p)) => crate::begin_release(&mut image, p),
        };
        match reply {
            Ok(answer) => writeln!(output, "{}", answer.number())?,
            Err(refusal) => writeln!(output, "x {}", refusal.number())?,
        }
    }
    let (lock_word, entries) = crate::held(&mut image).unwrap_or((0, &[]));
    writeln!(output, "lock {lock_word}")?;
    write!(output, "log")?;
    for entry in entries {
        write!(output, " {entry}")?;
    }
    writeln!(output)?;
    output.flush()
}

#[cfg(test)]
mod tests {
    use super::*;
    use std::io::BufReader;

    fn turns(input: impl AsRef<[u8]>) -> String {
        let mut output = Vec::new();
        run(input.as_ref(), &mut output).unwrap();
        String::from_utf8(output).unwrap()
    }

    #[test]
    fn the_listing() {
        let input = "n 1\na 1 10\ns 1\ns 1\ns 1\ns 1\nr 1\ns 1\ns 1\ns 1\n";
        let expected = "0\n0\n0\n3\n0\n2\n0\n4\n0\n5\nlock 0\nlog 1\n";
        assert_eq!(turns(input), expected);
        // The last newline may lack.
        assert_eq!(turns(input.trim_end()), expected);
    }

    #[test]
    fn an_empty_input() {
        assert_eq!(turns(""), "lock 0\nlog\n");
    }

    #[test]
    fn before_a_set_up_every_call_is_refused_by_1() {
        assert_eq!(
            turns("a 1 1\ns 0\nr 999\na 0 0\nn 0\nn 65\nx\n"),
            "x 1\nx 1\nx 1\nx 1\nx 7\nx 7\nx 9\nlock 0\nlog\n"
        );
    }

    #[test]
    fn numbers_up_to_999_are_calls() {
        assert_eq!(
            turns("n 64\na 64 254\na 65 1\na 999 0\na 1 255\na 1 999\na 1 0\ns 0\nr 64\nn 999\n"),
            "0\n0\nx 2\nx 2\nx 3\nx 3\nx 3\nx 2\nx 4\nx 7\nlock 0\nlog\n"
        );
    }

    #[test]
    fn malformed_lines() {
        for line in [
            "",
            " ",
            "n",
            "n ",
            " n 1",
            "n 1 ",
            "n  1",
            "n 01",
            "n 00",
            "n +1",
            "n -1",
            "n 1000",
            "n 1.0",
            "n 1\r",
            "\r",
            "n\t1",
            "N 1",
            "nn 1",
            "n 1 1",
            "n1",
            "n 0x1",
            "n \u{661}",
            "a 1",
            "a 1 ",
            "a 1 1 1",
            "a 1  1",
            "a  1 1",
            "a 1 01",
            "s",
            "s 1 1",
            "s 1\0",
            "r 1 1",
            "l",
            "t 1",
            "1",
            "n 1x",
            "n 1              ",
        ] {
            assert_eq!(turns(format!("{line}\n")), "x 9\nlock 0\nlog\n", "{line:?}");
            // No call, also where there is a table.
            assert_eq!(
                turns(format!("n 2\n{line}\ns 1\n")),
                "0\nx 9\nx 4\nlock 0\nlog\n",
                "{line:?}"
            );
        }
        assert_eq!(turns("n 1\n\n\n"), "0\nx 9\nx 9\nlock 0\nlog\n");
        assert_eq!(turns(b"n \xff\n"), "x 9\nlock 0\nlog\n");
    }

    #[test]
    fn a_long_line_is_one_malformed_line() {
        for length in [16, 17, 18, 4096, 8191, 8192, 8193, 100_000, 1_000_000] {
            let mut input = b"n 1\n".to_vec();
            input.extend(vec![b'1'; length]);
            assert_eq!(turns(&input), "0\nx 9\nlock 0\nlog\n", "{length}");
            input.extend(b"\na 1 7\n");
            assert_eq!(turns(&input), "0\nx 9\n0\nlock 0\nlog\n", "{length}");
        }
        // A good beginning makes no call of it.
        let mut input = b"n 1".to_vec();
        input.extend(vec![b' '; 20_000]);
        input.extend(b"\nn 1\n");
        assert_eq!(turns(&input), "x 9\n0\nlock 0\nlog\n");
    }

    #[test]
    fn lines_across_the_edges_of_small_buffers() {
        let input: &[u8] =
            b"n 3\na 1 10\ns 1\ns 1\ns 1\ns 1\nthis line is far too long to be one\na 2 5\n\ns 2\nr 1";
        let expected = turns(input);
        for capacity in 1..40 {
            let mut output = Vec::new();
            run(BufReader::with_capacity(capacity, input), &mut output).unwrap();
            assert_eq!(String::from_utf8(output).unwrap(), expected);
        }
        assert_eq!(
            expected,
            "0\n0\n0\n3\n0\n2\nx 9\n0\nx 9\n0\n0\nlock 1\nlog 1\n"
        );
    }

    #[test]
    fn a_line_of_two_and_their_log() {
        let mut input = String::from("n 3\na 1 10\ns 1\ns 1\ns 1\ns 1\na 2 5\n");
        input += &"s 2\n".repeat(9);
        input += "r 1\n";
        input += &"s 1\n".repeat(5);
        input += "s 2\n";
        assert_eq!(
            turns(&input),
            "0\n0\n0\n3\n0\n2\n0\n0\n0\n0\n0\n0\n0\n3\n0\n1\n0\n4\n0\n0\n0\n5\n2\nlock 2\nlog 1 2\n"
        );
        // A new set-up starts a new history.
        input += "n 2\n";
        assert!(turns(&input).ends_with("2\n0\nlock 0\nlog\n"));
    }

    #[test]
    fn the_urgent_one_joins() {
        let mut input = String::from("n 3\na 1 10\ns 1\ns 1\ns 1\ns 1\na 3 20\n");
        input += &"s 3\n".repeat(9);
        input += "r 1\n";
        input += &"s 1\n".repeat(5);
        input += "s 3\n";
        assert_eq!(
            turns(&input),
            "0\n0\n0\n3\n0\n2\n0\n0\n0\n0\n0\n0\n0\n3\n0\n1\n0\n4\n0\n0\n0\n5\n2\nlock 3\nlog 1 3\n"
        );
    }

    #[test]
    fn a_full_log() {
        let enter = "a 64 1\ns 64\ns 64\ns 64\ns 64\n";
        let round = format!("{enter}r 64\ns 64\ns 64\ns 64\n");
        let input = format!("n 64\n{}{enter}", round.repeat(256));
        let output = turns(input);
        let expected_end = format!("5\n0\n0\n3\n0\nx 5\nlock 64\nlog{}\n", " 64".repeat(256));
        assert!(output.ends_with(&expected_end));
    }
}
