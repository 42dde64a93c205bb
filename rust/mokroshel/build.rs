//! Finds the archive of the proved calls, or has it made.

use std::env;
use std::path::{Path, PathBuf};
use std::process::Command;

fn main() {
    println!("cargo::rerun-if-env-changed=MOKROSHEL_ARCHIVE");
    let directory = match env::var_os("MOKROSHEL_ARCHIVE") {
        Some(given) => PathBuf::from(given),
        None => make(),
    };
    let archive = directory.join("libdesk.a");
    assert!(archive.is_file(), "no archive {}", archive.display());
    println!("cargo::rerun-if-changed={}", archive.display());
    println!("cargo::rustc-link-search=native={}", directory.display());
    println!("cargo::rustc-link-lib=static=desk");
}

/// Has `rt` prove the calls and compile them for the machine that this build is for.
fn make() -> PathBuf {
    let workspace = Path::new(env!("CARGO_MANIFEST_DIR")).join("..");
    for source in ["archive", "../crates", "../crates.txt"] {
        println!(
            "cargo::rerun-if-changed={}",
            workspace.join(source).display()
        );
    }
    let directory = PathBuf::from(env::var_os("OUT_DIR").unwrap());
    let made = Command::new("bash")
        .arg(workspace.join("archive"))
        .arg(&directory)
        .arg(env::var_os("CARGO_CFG_TARGET_ARCH").unwrap())
        .status()
        .expect("bash runs");
    assert!(made.success(), "the archive was not made");
    directory
}
