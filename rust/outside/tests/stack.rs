//! The stack's measure; and that no call is seen to take more than its limit.
#![allow(unsafe_code)]

use std::arch::global_asm;
use std::collections::BTreeSet;

use cases::Call;
use outside::frames::{limits, Machine};
use outside::stack::{depth, of_cases};

/// Functions that take just so many bytes and write the lowest word of them.
macro_rules! functions {
    ($($name:ident: $bytes:literal),*) => {
        extern "C" { $(fn $name();)* }
        const FUNCTIONS: &[(usize, unsafe extern "C" fn())] = &[$(($bytes, $name)),*];
        $(
            #[cfg(target_arch = "x86_64")]
            global_asm!(
                concat!(".globl ", stringify!($name), "\n", stringify!($name), ":"),
                "sub rsp, {bytes}\n .if {bytes}\n mov [rsp], rsp\n .endif\n add rsp, {bytes}\n ret",
                bytes = const $bytes,
            );
            #[cfg(target_arch = "aarch64")]
            global_asm!(
                concat!(".globl ", stringify!($name), "\n", stringify!($name), ":"),
                "sub sp, sp, #{bytes}\n .if {bytes}\n str x30, [sp]\n .endif",
                "add sp, sp, #{bytes}\n ret",
                bytes = const $bytes,
            );
        )*
    };
}

functions!(takes_0: 0, takes_16: 16, takes_64: 64, takes_1024: 1024);

#[test]
fn a_call_takes_just_what_it_takes() {
    let return_address = if cfg!(target_arch = "x86_64") { 8 } else { 0 };
    for (bytes, function) in FUNCTIONS {
        // SAFETY: they take no words, and leave the stack pointer as it was.
        let (took, _) = unsafe { depth(*function as *const (), [0; 4]) };
        assert_eq!(took, return_address + bytes);
    }
}

extern "C" fn told(a: usize, b: usize, c: usize, d: usize) -> u32 {
    (a * 1000 + b * 100 + c * 10 + d) as u32
}

#[test]
fn the_words_go_in_and_the_number_comes_out() {
    // SAFETY: it takes any words.
    let (_, returned) = unsafe { depth(told as *const (), [1, 2, 3, 4]) };
    assert_eq!(returned, 1234);
}

/// Were the listing misread from which the bounds come, a call could be seen above them. Set-up and
/// take log may call the C library, whose own stack is in no limit.
#[test]
fn no_call_is_seen_above_its_limit() {
    let machine = Machine::named(std::env::consts::ARCH).unwrap();
    let limits = limits(machine, include_str!("../../stack.txt")).unwrap();
    let mut met = BTreeSet::new();
    of_cases(20_000, |call, _, (took, _)| {
        let export = match call {
            Call::BeginAcquisition { .. } => "mokroshel_begin_acquisition",
            Call::BeginRelease { .. } => "mokroshel_begin_release",
            Call::Step { .. } => "mokroshel_step",
            Call::Turn { .. } => "mokroshel_turn",
            Call::SetUp { .. } | Call::TakeLog { .. } => return,
        };
        met.insert(export);
        assert!(took <= limits[export], "{call}: {took} bytes");
    });
    assert_eq!(met.len(), 4);
}
