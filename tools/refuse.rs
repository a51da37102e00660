//! Refuses memory to a program: `malloc` and `realloc` of the C library, one call of which fails, or
//! all from one on. `tools/refuse-memory` builds it as a library and loads it before the program.
//!
//! REFUSE is the number of the first call that fails, from 0; with REFUSE_ON set each later one fails
//! too. One byte is written to the descriptor 9 for each refusal. What the loader takes before the
//! program begins is not counted.
#![no_std]

use core::sync::atomic::{AtomicI64, Ordering};

unsafe extern "C" {
    fn __libc_malloc(size: usize) -> *mut u8;
    fn __libc_realloc(old: *mut u8, size: usize) -> *mut u8;
    fn getenv(name: *const u8) -> *const u8;
    fn atol(text: *const u8) -> i64;
    fn write(file: i32, bytes: *const u8, count: usize) -> isize;
}

// How many calls are left before the first that fails; negative once it was refused.
static LEFT: AtomicI64 = AtomicI64::new(i64::MAX);
static ON: AtomicI64 = AtomicI64::new(0);

extern "C" fn begin() {
    unsafe {
        let first = getenv(c"REFUSE".as_ptr().cast());
        if !first.is_null() {
            ON.store(!getenv(c"REFUSE_ON".as_ptr().cast()).is_null() as i64, Ordering::SeqCst);
            LEFT.store(atol(first), Ordering::SeqCst);
        }
    }
}

#[used]
#[unsafe(link_section = ".init_array")]
static BEGIN: extern "C" fn() = begin;

fn is_refused() -> bool {
    let left = LEFT.fetch_sub(1, Ordering::SeqCst);
    let refused = left == 0 || (left < 0 && ON.load(Ordering::SeqCst) != 0);
    if refused {
        unsafe { write(9, b"x".as_ptr(), 1) };
    }
    refused
}

#[unsafe(no_mangle)]
unsafe extern "C" fn malloc(size: usize) -> *mut u8 {
    if is_refused() { core::ptr::null_mut() } else { unsafe { __libc_malloc(size) } }
}

#[unsafe(no_mangle)]
unsafe extern "C" fn realloc(old: *mut u8, size: usize) -> *mut u8 {
    if is_refused() { core::ptr::null_mut() } else { unsafe { __libc_realloc(old, size) } }
}

#[panic_handler]
fn panic(_: &core::panic::PanicInfo) -> ! {
    loop {}
}
