//! The program itself.

use std::process::{Command, Output};

fn compare(arguments: &[&str]) -> (Option<i32>, String) {
    let Output { status, stdout, .. } = Command::new(env!("CARGO_BIN_EXE_compare"))
        .args(arguments)
        .output()
        .unwrap();
    (status.code(), String::from_utf8(stdout).unwrap())
}

#[test]
fn it_succeeds_where_all_classes_are_met() {
    let (code, output) = compare(&["--seed", "3", "--calls", "500000"]);
    assert_eq!(code, Some(0), "{output}");
    assert!(output.contains("no difference"));
    assert!(!output.contains("never met"));
}

#[test]
fn it_fails_where_a_class_is_never_met() {
    let (code, output) = compare(&["--calls", "1000"]);
    assert_eq!(code, Some(1));
    assert!(output.contains("never met: "));
}

#[test]
fn it_does_not_guess_at_its_arguments() {
    assert_eq!(compare(&["--calls", "many"]).0, Some(2));
}
