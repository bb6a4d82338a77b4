//! The functions that `liblines.a` exports, and the one of the C library.

use std::ffi::{c_int, c_void};

extern "C" {
    pub fn before_newline(bytes: *const u8, length: usize) -> usize;
    pub fn has_newline(word: u64) -> bool;
    pub fn memchr(bytes: *const c_void, byte: c_int, length: usize) -> *const c_void;
}
