//! The exports of the archive. All `unsafe` of this package is here.
#![allow(unsafe_code)]

use crate::Marker;

mod archive {
    use crate::Marker;

    // A slice is its pointer and its length.
    extern "C" {
        pub fn mokroshel_set_up(image: *mut u8, length: usize, n: u32) -> u32;
        pub fn mokroshel_begin_acquisition(
            image: *mut u8,
            length: usize,
            p: u32,
            priority: u32,
        ) -> u32;
        pub fn mokroshel_begin_release(image: *mut u8, length: usize, p: u32) -> u32;
        pub fn mokroshel_step(image: *mut u8, length: usize, p: u32) -> u32;
        pub fn mokroshel_take_log(
            image: *mut u8,
            length: usize,
            log: *mut u8,
            log_length: usize,
        ) -> u32;
        pub fn mokroshel_turn(image: *mut u8, length: usize, marker: *mut Marker) -> u32;
    }
}

// SAFETY of each call below: a `&mut [u8]` may be read and written over its whole length, a
// `&mut Marker` over its one number, and nobody else has it meanwhile; two of them do not overlap,
// and every number is taken. The calls
// are proved to touch nothing else, to keep no pointer and to return.

pub fn set_up(image: &mut [u8], n: u32) -> u32 {
    unsafe { archive::mokroshel_set_up(image.as_mut_ptr(), image.len(), n) }
}

pub fn begin_acquisition(image: &mut [u8], p: u32, priority: u32) -> u32 {
    unsafe { archive::mokroshel_begin_acquisition(image.as_mut_ptr(), image.len(), p, priority) }
}

pub fn begin_release(image: &mut [u8], p: u32) -> u32 {
    unsafe { archive::mokroshel_begin_release(image.as_mut_ptr(), image.len(), p) }
}

pub fn step(image: &mut [u8], p: u32) -> u32 {
    unsafe { archive::mokroshel_step(image.as_mut_ptr(), image.len(), p) }
}

pub fn take_log(image: &mut [u8], log: &mut [u8]) -> u32 {
    unsafe {
        archive::mokroshel_take_log(image.as_mut_ptr(), image.len(), log.as_mut_ptr(), log.len())
    }
}

pub fn turn(image: &mut [u8], marker: &mut Marker) -> u32 {
    unsafe { archive::mokroshel_turn(image.as_mut_ptr(), image.len(), marker) }
}
