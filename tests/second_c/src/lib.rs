//! The second implementation by C names: what `tacit_` is to the library,
//! `second_` is to it, for every call of `tests/calls/calls.txt`.
//!
//! # Safety
//! Every call trusts its caller to keep to what `tacit.h` asks for.

#![allow(clippy::missing_safety_doc, clippy::too_many_arguments)]

use std::slice;

/// # Safety
/// With a length other than 0 the pointer is good for it.
unsafe fn lent<'a, T>(start: *const T, length: usize) -> &'a [T] {
    if length == 0 {
        &[]
    } else {
        slice::from_raw_parts(start, length)
    }
}

/// # Safety
/// As [`lent`], and nothing else points there.
unsafe fn lent_mut<'a, T>(start: *mut T, length: usize) -> &'a mut [T] {
    if length == 0 {
        &mut []
    } else {
        slice::from_raw_parts_mut(start, length)
    }
}

include!(concat!(env!("OUT_DIR"), "/calls.rs"));
