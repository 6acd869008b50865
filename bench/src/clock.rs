//! The processor's time: what other programs take meanwhile doesn't count, and a pass never waits.

use std::ffi::{c_int, c_long};

#[repr(C)]
struct Timespec {
    seconds: i64,
    nanoseconds: c_long,
}

extern "C" {
    fn clock_gettime(clock: c_int, time: *mut Timespec) -> c_int;
}

// The number of Linux.
const CLOCK_THREAD_CPUTIME_ID: c_int = 3;

/// Seconds that this thread has had of a processor, the system's work for it included.
fn now() -> f64 {
    let mut time = Timespec { seconds: 0, nanoseconds: 0 };
    // SAFETY: the structure is lent for the call.
    let failed = unsafe { clock_gettime(CLOCK_THREAD_CPUTIME_ID, &mut time) };
    assert_eq!(failed, 0, "the system has no clock for a thread");
    time.seconds as f64 + time.nanoseconds as f64 * 1e-9
}

/// What `work` gives, and its seconds.
pub fn timed<T>(work: impl FnOnce() -> T) -> (T, f64) {
    let start = now();
    let given = work();
    (given, now() - start)
}
