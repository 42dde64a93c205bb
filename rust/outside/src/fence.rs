//! Buffers whose ends are guarded.
#![allow(unsafe_code)]

use std::ffi::{c_int, c_long, c_void};

use mokroshel::Marker;

extern "C" {
    fn mmap(
        at: *mut c_void,
        n: usize,
        prot: c_int,
        flags: c_int,
        fd: c_int,
        from: c_long,
    ) -> *mut c_void;
    fn mprotect(at: *mut c_void, n: usize, prot: c_int) -> c_int;
}

// Linux, on x86-64 and on aarch64.
const PROT_NONE: c_int = 0;
const PROT_READ_AND_WRITE: c_int = 3;
const MAP_PRIVATE_AND_ANONYMOUS: c_int = 0x22;

/// A multiple of every size that a page has.
const FIELD: usize = 1 << 16;
const GUARD: usize = 64;
const GUARD_BYTE: u8 = 0xa5;

/// Memory between two pages that nobody may touch. A buffer is lent right in front of the one behind
/// it, or right behind the one before it, or as a heap allocation of just its length, in turn. At
/// its other end stand guard bytes.
pub struct Fence {
    field: &'static mut [u8],
    turn: usize,
}

impl Fence {
    /// Fenced memory. It is never given back.
    pub fn new() -> Fence {
        // SAFETY: the mapping is fresh, and its middle third is made readable and writable before a
        // slice is made of it, zero at first.
        let field = unsafe {
            let all = mmap(
                std::ptr::null_mut(),
                3 * FIELD,
                PROT_NONE,
                MAP_PRIVATE_AND_ANONYMOUS,
                -1,
                0,
            );
            assert_ne!(all as isize, -1, "mmap");
            let middle = all.cast::<u8>().add(FIELD);
            assert_eq!(mprotect(middle.cast(), FIELD, PROT_READ_AND_WRITE), 0);
            std::slice::from_raw_parts_mut(middle, FIELD)
        };
        Fence { field, turn: 0 }
    }

    /// Lends a guarded copy of these bytes, and copies it back.
    ///
    /// Panics if a guard byte was changed. Whoever goes past the fence is ended by the system.
    pub fn lend<T>(&mut self, bytes: &mut [u8], call: impl FnOnce(&mut [u8]) -> T) -> T {
        let length = bytes.len();
        assert!(length + GUARD <= FIELD, "a buffer of {length} bytes");
        self.turn += 1;
        let at_end = match self.turn % 3 {
            0 => {
                let mut heap = bytes.to_vec().into_boxed_slice();
                let result = call(&mut heap);
                bytes.copy_from_slice(&heap);
                return result;
            }
            place => place == 1,
        };
        let (lent, guard) = if at_end {
            let (front, lent) = self.field.split_at_mut(FIELD - length);
            (lent, &mut front[FIELD - length - GUARD..])
        } else {
            let (lent, back) = self.field.split_at_mut(length);
            (lent, &mut back[..GUARD])
        };
        guard.fill(GUARD_BYTE);
        lent.copy_from_slice(bytes);
        let result = call(lent);
        bytes.copy_from_slice(lent);
        assert_eq!(guard, [GUARD_BYTE; GUARD], "guard bytes were changed");
        result
    }

    /// The same for a turn marker.
    pub fn lend_marker<T>(
        &mut self,
        marker: &mut Marker,
        call: impl FnOnce(&mut Marker) -> T,
    ) -> T {
        let mut bytes = marker.last.to_ne_bytes();
        let result = self.lend(&mut bytes, |bytes| {
            // SAFETY: any four bytes are a number, and a marker is one number.
            match unsafe { bytes.align_to_mut::<Marker>() } {
                ([], [marker], []) => call(marker),
                _ => panic!("four bytes that are not lent in a number's place"),
            }
        });
        marker.last = u32::from_ne_bytes(bytes);
        result
    }
}

impl Default for Fence {
    fn default() -> Fence {
        Fence::new()
    }
}
