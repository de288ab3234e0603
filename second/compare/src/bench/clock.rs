//! The processor time of this thread. Other programs share the machine, and their time must not count.

use std::time::Duration;

/// Linux's `struct timespec` on machines of 64 bits.
#[repr(C)]
#[derive(Default)]
struct Moment {
    seconds: i64,
    nanoseconds: i64,
}

/// Linux's `CLOCK_THREAD_CPUTIME_ID`.
const OF_THREAD: i32 = 3;

extern "C" {
    fn clock_gettime(clock: i32, moment: *mut Moment) -> i32;
}

/// How long this thread has run. Only differences mean anything.
pub fn spent() -> Duration {
    let mut moment = Moment::default();
    // SAFETY: the pointer is to a moment of the form that the call fills.
    let failed = unsafe { clock_gettime(OF_THREAD, &mut moment) };
    assert_eq!(failed, 0, "no clock of processor time");
    Duration::new(moment.seconds as u64, moment.nanoseconds as u32)
}
