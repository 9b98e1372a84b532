//! The processor time of this thread: what other programs do on a busy machine does not count.

use std::time::Duration;

const THREAD_CPUTIME: i32 = 3;

#[repr(C)]
struct Timespec {
    seconds: i64,
    nanoseconds: i64,
}

extern "C" {
    fn clock_gettime(clock: i32, now: *mut Timespec) -> i32;
}

pub fn now() -> Duration {
    let mut now = Timespec { seconds: 0, nanoseconds: 0 };
    // SAFETY: the C library of x86-64 Linux writes two 64-bit numbers.
    let status = unsafe { clock_gettime(THREAD_CPUTIME, &mut now) };
    assert_eq!(status, 0, "the thread's clock can be read");
    Duration::new(now.seconds as u64, now.nanoseconds as u32)
}
