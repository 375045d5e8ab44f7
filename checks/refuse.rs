//! Refuses one allocation or one connection of a program, to see what it does then. A library for LD_PRELOAD, for the GNU C
//! library on Linux.
//!
//! Build:  rustc --edition 2021 -O --crate-type cdylib -C panic=abort checks/refuse.rs -o refuse.so
//! Run:    LD_PRELOAD=./refuse.so REFUSE=N MARK=3 PROGRAM 3>FILE
//!
//! The calls by which a program takes memory are counted together, from 1: `malloc`, `calloc`, `realloc`, those for aligned
//! memory, and `mmap`. The N-th fails, as where memory ran out, and all others go to the C library. With ACCEPT=N the N-th
//! `accept4` fails instead, as where the system has no descriptor left. When it refuses, it writes one byte to the descriptor
//! that MARK names, so that a run in which nothing was refused can be told from one that came to its end in spite of it.
//! Nothing here allocates.

use std::ffi::{c_char, c_int, c_long, c_void, CStr};
use std::ptr::null_mut;
use std::sync::atomic::{AtomicUsize, Ordering};

/// What the C library says of a refused allocation; parts of it that allocate for themselves, as where a thread is made,
/// expect it.
const ENOMEM: c_int = 12;
/// What the system says where a process has as many descriptors as it may have.
const EMFILE: c_int = 24;
/// The numbers of the calls in Linux on x86-64.
const SYS_MMAP: c_long = 9;
const SYS_ACCEPT4: c_long = 288;

static ALLOCATIONS: AtomicUsize = AtomicUsize::new(0);
static CONNECTIONS: AtomicUsize = AtomicUsize::new(0);

extern "C" {
    fn __libc_malloc(size: usize) -> *mut c_void;
    fn __libc_calloc(count: usize, size: usize) -> *mut c_void;
    fn __libc_realloc(old: *mut c_void, size: usize) -> *mut c_void;
    fn __libc_memalign(align: usize, size: usize) -> *mut c_void;
    fn syscall(number: c_long, ...) -> c_long;
    fn getenv(name: *const c_char) -> *const c_char;
    fn write(descriptor: c_int, bytes: *const c_void, len: usize) -> isize;
    fn __errno_location() -> *mut c_int;
}

/// The number in an environment variable, 0 where there is none or it isn't a number.
fn number_in(variable: &CStr) -> usize {
    // SAFETY: the name ends with a zero byte, and so does the text that `getenv` returns.
    unsafe {
        let mut at = getenv(variable.as_ptr());
        let mut number = 0usize;
        while !at.is_null() && *at != 0 {
            let digit = (*at as u8).wrapping_sub(b'0');
            if digit > 9 {
                return 0;
            }
            number = number.wrapping_mul(10).wrapping_add(usize::from(digit));
            at = at.add(1);
        }
        number
    }
}

/// Counts a call, and tells whether it is the one that a variable names. That one fails with an error.
fn is_refused(calls: &AtomicUsize, variable: &CStr, error: c_int) -> bool {
    let call = calls.fetch_add(1, Ordering::Relaxed) + 1;
    let refused = call == number_in(variable);
    if refused {
        let mark = number_in(c"MARK") as c_int;
        // SAFETY: one byte is there to be written, and each thread has a place for its error's number.
        unsafe {
            write(mark, b"x".as_ptr().cast(), 1);
            *__errno_location() = error;
        }
    }
    refused
}

fn is_allocation_refused() -> bool {
    is_refused(&ALLOCATIONS, c"REFUSE", ENOMEM)
}

/// # Safety
/// As for `malloc` of the C library.
#[no_mangle]
pub unsafe extern "C" fn malloc(size: usize) -> *mut c_void {
    if is_allocation_refused() {
        null_mut()
    } else {
        __libc_malloc(size)
    }
}

/// # Safety
/// As for `calloc` of the C library.
#[no_mangle]
pub unsafe extern "C" fn calloc(count: usize, size: usize) -> *mut c_void {
    if is_allocation_refused() {
        null_mut()
    } else {
        __libc_calloc(count, size)
    }
}

/// # Safety
/// As for `realloc` of the C library.
#[no_mangle]
pub unsafe extern "C" fn realloc(old: *mut c_void, size: usize) -> *mut c_void {
    if is_allocation_refused() {
        null_mut()
    } else {
        __libc_realloc(old, size)
    }
}

/// # Safety
/// As for `aligned_alloc` of the C library.
#[no_mangle]
pub unsafe extern "C" fn aligned_alloc(align: usize, size: usize) -> *mut c_void {
    if is_allocation_refused() {
        null_mut()
    } else {
        __libc_memalign(align, size)
    }
}

/// # Safety
/// As for `posix_memalign` of the C library.
#[no_mangle]
pub unsafe extern "C" fn posix_memalign(place: *mut *mut c_void, align: usize, size: usize) -> c_int {
    let memory = aligned_alloc(align, size);
    if memory.is_null() {
        return ENOMEM;
    }
    *place = memory;
    0
}

/// # Safety
/// As for `mmap` of the C library.
#[no_mangle]
pub unsafe extern "C" fn mmap(
    at: *mut c_void,
    len: usize,
    protection: c_int,
    flags: c_int,
    descriptor: c_int,
    offset: c_long,
) -> *mut c_void {
    if is_allocation_refused() {
        usize::MAX as *mut c_void
    } else {
        syscall(SYS_MMAP, at, len, protection, flags, descriptor, offset) as *mut c_void
    }
}

/// # Safety
/// As for `accept4` of the C library.
#[no_mangle]
pub unsafe extern "C" fn accept4(listener: c_int, address: *mut c_void, len: *mut c_void, flags: c_int) -> c_int {
    if is_refused(&CONNECTIONS, c"ACCEPT", EMFILE) {
        -1
    } else {
        syscall(SYS_ACCEPT4, listener, address, len, flags) as c_int
    }
}
