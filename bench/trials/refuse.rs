//! A library to preload, for `bench/trials/refused`: the call of malloc, calloc or realloc whose number is in AVTP_REFUSE finds
//! no memory, and then a byte is written to file descriptor 9.
use std::ffi::{c_char, c_int, c_ulong, c_void};
use std::ptr::null_mut;
use std::sync::atomic::{AtomicU64, Ordering::SeqCst};

unsafe extern "C" {
    fn __libc_malloc(size: usize) -> *mut c_void;
    fn __libc_calloc(count: usize, size: usize) -> *mut c_void;
    fn __libc_realloc(old: *mut c_void, size: usize) -> *mut c_void;
    fn __errno_location() -> *mut c_int;
    fn getenv(name: *const c_char) -> *const c_char;
    fn strtoul(text: *const c_char, end: *mut *mut c_char, base: c_int) -> c_ulong;
    fn write(fd: c_int, bytes: *const c_void, len: usize) -> isize;
}

const NO_MEMORY: c_int = 12;

static CALLS: AtomicU64 = AtomicU64::new(0);

fn is_refused() -> bool {
    let call = CALLS.fetch_add(1, SeqCst) + 1;
    unsafe {
        let asked = getenv(c"AVTP_REFUSE".as_ptr());
        if asked.is_null() || strtoul(asked, null_mut(), 10) != call {
            return false;
        }
        write(9, c"x".as_ptr().cast(), 1);
        *__errno_location() = NO_MEMORY;
    }
    true
}

#[unsafe(no_mangle)]
pub unsafe extern "C" fn malloc(size: usize) -> *mut c_void {
    if is_refused() { null_mut() } else { unsafe { __libc_malloc(size) } }
}

#[unsafe(no_mangle)]
pub unsafe extern "C" fn calloc(count: usize, size: usize) -> *mut c_void {
    if is_refused() { null_mut() } else { unsafe { __libc_calloc(count, size) } }
}

#[unsafe(no_mangle)]
pub unsafe extern "C" fn realloc(old: *mut c_void, size: usize) -> *mut c_void {
    if is_refused() { null_mut() } else { unsafe { __libc_realloc(old, size) } }
}
