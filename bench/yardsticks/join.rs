//! Two calls at once, one of them in a new thread of the C library, which takes fewer system calls to make than one of Rust's.

use std::ffi::{c_int, c_ulong, c_void};
use std::ptr::{null, null_mut};

unsafe extern "C" {
    fn pthread_create(
        thread: *mut c_ulong,
        attributes: *const c_void,
        start: extern "C" fn(*mut c_void) -> *mut c_void,
        argument: *mut c_void,
    ) -> c_int;
    fn pthread_join(thread: c_ulong, answer: *mut *mut c_void) -> c_int;
}

/// A call that is made once, by whichever thread comes first, and its answer.
struct Call<F, A> {
    function: Option<F>,
    answer: Option<A>,
}

impl<F: FnOnce() -> A, A> Call<F, A> {
    fn make(&mut self) {
        if let Some(function) = self.function.take() {
            self.answer = Some(function());
        }
    }

    extern "C" fn start(call: *mut c_void) -> *mut c_void {
        unsafe { &mut *call.cast::<Self>() }.make();
        null_mut()
    }
}

/// A thread that is waited for when it is dropped.
struct Thread(c_ulong);

impl Thread {
    /// A thread that makes the call, if a thread can be made. Sound if the call outlives it, and nothing else looks at the call.
    unsafe fn start<F: FnOnce() -> A + Send, A: Send>(call: *mut Call<F, A>) -> Option<Self> {
        let mut thread = 0;
        let refused =
            unsafe { pthread_create(&mut thread, null(), Call::<F, A>::start, call.cast()) };
        (refused == 0).then_some(Thread(thread))
    }
}

impl Drop for Thread {
    fn drop(&mut self) {
        // Sound, because the thread was made, and nothing else waits for it.
        unsafe { pthread_join(self.0, null_mut()) };
    }
}

/// Calls `f` in a new thread and `g` in this one. If no thread can be made, calls `f` after `g`.
pub fn join<F: FnOnce() -> A + Send, A: Send, B>(f: F, g: impl FnOnce() -> B) -> (A, B) {
    let mut call = Call {
        function: Some(f),
        answer: None,
    };
    let thread = unsafe { Thread::start(&raw mut call) };
    let b = g();
    drop(thread);
    call.make();
    (call.answer.expect("the call was made"), b)
}
