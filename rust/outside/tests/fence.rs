//! The fence holds.
#![allow(unsafe_code)]

use std::os::unix::process::ExitStatusExt;
use std::panic::{catch_unwind, AssertUnwindSafe};
use std::process::Command;

use mokroshel::Marker;
use outside::Fence;

/// Lends five bytes until the buffer ends (or starts) at the untouchable page, and then calls.
fn lend_at(turn: usize, call: impl Fn(&mut [u8])) {
    let mut fence = Fence::new();
    for _ in 1..turn {
        fence.lend(&mut [0; 5], |_| ());
    }
    fence.lend(&mut [0; 5], |bytes| call(bytes));
}

#[test]
fn bytes_come_and_go() {
    let mut fence = Fence::new();
    for turn in 0..6 {
        let mut bytes = [1, 2, turn];
        let seen = fence.lend(&mut bytes, |lent| {
            let seen = lent.to_vec();
            lent[1] = 9;
            seen
        });
        assert_eq!((seen, bytes), (vec![1, 2, turn], [1, 9, turn]));
    }
}

#[test]
fn a_marker_comes_and_goes() {
    let mut fence = Fence::new();
    for last in 0x0102_0304..0x0102_030a {
        let mut marker = Marker { last };
        let seen = fence.lend_marker(&mut marker, |lent| {
            let seen = lent.last;
            lent.last = !seen;
            seen
        });
        assert_eq!((seen, marker.last), (last, !last));
    }
}

#[test]
fn guard_bytes_are_looked_at() {
    // SAFETY: the byte before the first, and that behind the last, is a guard byte.
    let before = || lend_at(1, |bytes| unsafe { *bytes.as_mut_ptr().sub(1) = 0 });
    let behind = || lend_at(2, |bytes| unsafe { *bytes.as_mut_ptr().add(5) = 0 });
    assert!(catch_unwind(AssertUnwindSafe(before)).is_err());
    assert!(catch_unwind(AssertUnwindSafe(behind)).is_err());
}

/// Run by [`nobody_goes_past_the_fence`] in a process of its own, which must not live to its end.
#[test]
#[ignore = "ends the process"]
fn past_the_end() {
    lend_at(1, |bytes| unsafe {
        std::hint::black_box(bytes.as_ptr().add(5).read_volatile());
    });
}

/// As [`past_the_end`].
#[test]
#[ignore = "ends the process"]
fn before_the_start() {
    lend_at(2, |bytes| unsafe {
        std::hint::black_box(bytes.as_ptr().sub(1).read_volatile());
    });
}

#[test]
fn nobody_goes_past_the_fence() {
    for name in ["past_the_end", "before_the_start"] {
        let ended = Command::new(std::env::current_exe().unwrap())
            .args(["--exact", name, "--ignored"])
            .output()
            .unwrap();
        // SIGSEGV.
        assert_eq!(ended.status.signal(), Some(11), "{name}: {ended:?}");
    }
}
