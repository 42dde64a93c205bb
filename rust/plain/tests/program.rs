//! The program itself, run over real pipes.

use std::io::Write;
use std::process::{Command, Stdio};

fn turns_plain(input: &[u8]) -> Vec<u8> {
    let mut child = Command::new(env!("CARGO_BIN_EXE_turns_plain"))
        .stdin(Stdio::piped())
        .stdout(Stdio::piped())
        .spawn()
        .unwrap();
    child.stdin.take().unwrap().write_all(input).unwrap();
    let output = child.wait_with_output().unwrap();
    assert!(output.status.success());
    output.stdout
}

#[test]
fn the_listing_of_turns() {
    assert_eq!(
        turns_plain(b"n 1\na 1 10\ns 1\ns 1\ns 1\ns 1\nr 1\ns 1\ns 1\ns 1\n"),
        b"0\n0\n0\n3\n0\n2\n0\n4\n0\n5\nlock 0\nlog 1\n"
    );
}

#[test]
fn nothing_at_all() {
    assert_eq!(turns_plain(b""), b"lock 0\nlog\n");
}

#[test]
fn one_line_of_ten_million_bytes() {
    let mut input = vec![b'7'; 10_000_000];
    input.extend(b"\nn 2");
    assert_eq!(turns_plain(&input), b"x 9\n0\nlock 0\nlog\n");
}
