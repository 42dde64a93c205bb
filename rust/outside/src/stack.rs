//! How much stack a call takes, seen by painting it.
#![allow(unsafe_code)]

use std::arch::asm;
use std::ptr;

use cases::{Call, Stream};
use compare::Lent;

// Only their addresses are taken: `depth` makes the calls.
extern "C" {
    fn mokroshel_set_up();
    fn mokroshel_begin_acquisition();
    fn mokroshel_begin_release();
    fn mokroshel_step();
    fn mokroshel_take_log();
    fn mokroshel_turn();
}

const PAINT: u64 = 0x5a5a_a5a5_5a5a_a5a5;
const FIELD: usize = 1 << 14;

/// Calls a function with these words. Returns how many bytes below the caller's stack pointer it
/// came to write, a multiple of 8 and at most 16 KiB, and the number that it returned.
///
/// All below the stack pointer is painted, the call made from right there, and the lowest word
/// looked for that is painted no more. So on x86-64 the return address counts, and nothing of the
/// caller's does. What is reserved and never written is not seen.
///
/// # Safety
///
/// The function must be one that C may call with these words, or the first of them, and that takes
/// far less stack than there is.
pub unsafe fn depth(function: *const (), words: [usize; 4]) -> (usize, u32) {
    let (bytes, returned): (usize, usize);
    // SAFETY: below the stack pointer nothing is kept, since this block may push; and there is far
    // more stack than this. The rest is the caller's promise.
    #[cfg(target_arch = "x86_64")]
    unsafe {
        asm!(
            "lea r11, [rsp - {field}]",
            "2: mov [r11], r12",
            "add r11, 8",
            "cmp r11, rsp",
            "jne 2b",
            "call rax",
            "lea rcx, [rsp - {field}]",
            "3: cmp [rcx], r12",
            "jne 4f",
            "add rcx, 8",
            "cmp rcx, rsp",
            "jne 3b",
            "4: sub rcx, rsp",
            "neg rcx",
            field = const FIELD,
            in("rdi") words[0],
            in("rsi") words[1],
            in("rdx") words[2],
            inlateout("rcx") words[3] => bytes,
            inlateout("rax") function as usize => returned,
            in("r12") PAINT,
            clobber_abi("C"),
        );
    }
    // SAFETY: as above.
    #[cfg(target_arch = "aarch64")]
    unsafe {
        asm!(
            "sub x9, sp, #{field}",
            "2: str x20, [x9], #8",
            "cmp sp, x9",
            "b.ne 2b",
            "blr x8",
            "sub x1, sp, #{field}",
            "3: ldr x9, [x1]",
            "cmp x9, x20",
            "b.ne 4f",
            "add x1, x1, #8",
            "cmp sp, x1",
            "b.ne 3b",
            "4: mov x9, sp",
            "sub x1, x9, x1",
            field = const FIELD,
            inlateout("x0") words[0] => returned,
            inlateout("x1") words[1] => bytes,
            in("x2") words[2],
            in("x3") words[3],
            in("x8") function,
            in("x20") PAINT,
            clobber_abi("C"),
        );
    }
    (bytes, returned as u32)
}

/// Makes a call to the archive: the bytes of stack that it took, and the word that it returned.
pub fn of(image: &mut [u8], lent: &mut Lent, call: &Call) -> (usize, u32) {
    let (function, third, fourth) = match *call {
        Call::SetUp { n } => (mokroshel_set_up as *const (), n as usize, 0),
        Call::BeginAcquisition { p, priority } => (
            mokroshel_begin_acquisition as *const (),
            p as usize,
            priority as usize,
        ),
        Call::BeginRelease { p } => (mokroshel_begin_release as *const (), p as usize, 0),
        Call::Step { p } => (mokroshel_step as *const (), p as usize, 0),
        Call::TakeLog { .. } => (
            mokroshel_take_log as *const (),
            lent.log.as_mut_ptr() as usize,
            lent.log.len(),
        ),
        Call::Turn { .. } => (
            mokroshel_turn as *const (),
            ptr::from_mut(&mut lent.last) as usize,
            0,
        ),
    };
    let words = [image.as_mut_ptr() as usize, image.len(), third, fourth];
    // SAFETY: as of the calls in `mokroshel`. A marker is one number.
    unsafe { depth(function, words) }
}

/// Makes at least this many calls of all kinds to the archive, over histories, strange and damaged
/// images. Each is shown with its image as it was before it, and with what [`of`] says of it.
pub fn of_cases(calls: usize, mut show: impl FnMut(&Call, &[u8], (usize, u32))) {
    let mut stream = Stream::new(1);
    let mut made = 0;
    while made < calls {
        let mut case = stream.next_case();
        let (mut image, mut lent) = (case.image.clone(), Lent::default());
        while let Some(call) = case.next_call(&image, lent.last) {
            lent.give(&call);
            let before = image.clone();
            show(&call, &before, of(&mut image, &mut lent, &call));
            made += 1;
        }
    }
}
