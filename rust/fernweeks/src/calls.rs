//! The exported calls, one for one, over slices: the numbers that they answer and the bytes of `docs/LAYOUT.md`.
//!
//! Everything unsafe of this crate is in this module. Each call is proved, whatever bytes it is lent, to end and to touch nothing
//! beyond the lengths it is given, so that lending slices is enough to make it safe. A slice crosses as a pointer and a length.

#![allow(unsafe_code)]

use crate::Asn;

mod exports {
    extern "C" {
        pub fn fernweeks_detect(bytes: *const u8, bytes_len: usize) -> u32;
        pub fn fernweeks_line_at_fault(text: *const u8, text_len: usize) -> u64;
        pub fn fernweeks_open(text: *const u8, text_len: usize, timestamp: f64, state: *mut u8, state_len: usize) -> u32;
        pub fn fernweeks_next(
            state: *mut u8,
            state_len: usize,
            part: *const u8,
            part_len: usize,
            asns: *mut u32,
            asns_len: usize,
            element: *mut u8,
            element_len: usize,
        ) -> u32;
        pub fn fernweeks_turn(state: *mut u8, state_len: usize) -> u32;
    }
}

/// 1 if the bytes look like a table, else 0.
pub fn detect(bytes: &[u8]) -> u32 {
    unsafe { exports::fernweeks_detect(bytes.as_ptr(), bytes.len()) }
}

/// The number of the line at fault, from 1, where [`open`] answers 1 for this text; else 0.
pub fn line_at_fault(text: &[u8]) -> u64 {
    unsafe { exports::fernweeks_line_at_fault(text.as_ptr(), text.len()) }
}

/// 0 and the state's bytes, or the refusal (9, 4, 1, 2) with the bytes as they were.
pub fn open(text: &[u8], timestamp: f64, state: &mut [u8]) -> u32 {
    unsafe { exports::fernweeks_open(text.as_ptr(), text.len(), timestamp, state.as_mut_ptr(), state.len()) }
}

/// 0 an element, 255 End, or the refusal (9, 5, 6, 7) with everything as it was.
pub fn next(state: &mut [u8], part: &[u8], asns: &mut [u32], element: &mut [u8]) -> u32 {
    unsafe {
        exports::fernweeks_next(
            state.as_mut_ptr(),
            state.len(),
            part.as_ptr(),
            part.len(),
            asns.as_mut_ptr(),
            asns.len(),
            element.as_mut_ptr(),
            element.len(),
        )
    }
}

/// 0, or the refusal (9, 5) with the bytes as they were.
pub fn turn(state: &mut [u8]) -> u32 {
    unsafe { exports::fernweeks_turn(state.as_mut_ptr(), state.len()) }
}

/// The numbers of a list of AS numbers; `Asn` is a `u32` in memory.
pub(crate) fn numbers(asns: &mut [Asn]) -> &mut [u32] {
    unsafe { std::slice::from_raw_parts_mut(asns.as_mut_ptr().cast(), asns.len()) }
}
