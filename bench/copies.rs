// SPDX-License-Identifier: Apache-2.0
//! Counts the bytes that memcpy and memmove move in a program that is run with it in LD_PRELOAD, and the copies of a whole table among them. It
//! prints both on standard error when the program ends. bench/run builds it for `runsheet`.

use std::arch::asm;
use std::ffi::c_void;
use std::sync::atomic::{AtomicUsize, Ordering};

/// A copy this long is one of a whole table (19,560 bytes); the compiler keeps a few words of one in registers.
const WHOLE: usize = 19_500;

static MOVED: AtomicUsize = AtomicUsize::new(0);
static TABLES: AtomicUsize = AtomicUsize::new(0);

fn count(length: usize) {
    MOVED.fetch_add(length, Ordering::Relaxed);
    if length >= WHOLE {
        TABLES.fetch_add(length / WHOLE, Ordering::Relaxed);
    }
}

#[unsafe(no_mangle)]
unsafe extern "C" fn memcpy(to: *mut c_void, from: *const c_void, length: usize) -> *mut c_void {
    count(length);
    unsafe { asm!("rep movsb", inout("rcx") length => _, inout("rdi") to => _, inout("rsi") from => _) };
    to
}

#[unsafe(no_mangle)]
unsafe extern "C" fn memmove(to: *mut c_void, from: *const c_void, length: usize) -> *mut c_void {
    count(length);
    if to.addr().wrapping_sub(from.addr()) >= length {
        unsafe { asm!("rep movsb", inout("rcx") length => _, inout("rdi") to => _, inout("rsi") from => _) };
    } else if length > 0 {
        let last = length - 1;
        unsafe { asm!("std", "rep movsb", "cld", inout("rcx") length => _, inout("rdi") to.byte_add(last) => _, inout("rsi") from.byte_add(last) => _) };
    }
    to
}

extern "C" fn report() {
    let counts = [&MOVED, &TABLES].map(|count| count.load(Ordering::Relaxed));
    eprintln!("{} {}", counts[0], counts[1]);
}

#[used]
#[unsafe(link_section = ".fini_array")]
static AT_EXIT: extern "C" fn() = report;
