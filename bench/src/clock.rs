//! The time that this thread has had a core. On a machine that does other work too, the turns of that work are not in
//! it.

use std::time::Duration;

/// Linux's number of the clock.
const THREAD_CPUTIME: i32 = 3;

#[repr(C)]
#[derive(Default)]
struct Timespec {
    seconds: i64,
    nanoseconds: i64,
}

unsafe extern "C" {
    fn clock_gettime(clock: i32, time: *mut Timespec) -> i32;
}

pub fn now() -> Duration {
    let mut time = Timespec::default();
    // The pointer is to a `struct timespec` as 64-bit Linux lays it.
    let failed = unsafe { clock_gettime(THREAD_CPUTIME, &mut time) };
    assert_eq!(failed, 0, "there is a clock for the thread");
    Duration::new(time.seconds as u64, time.nanoseconds as u32)
}
