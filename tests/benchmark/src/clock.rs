//! Processor time, which other work on the machine disturbs less than the time of day.

#[repr(C)]
struct Time {
    seconds: i64,
    nanoseconds: i64,
}

/// Of Linux: the time of the calling thread.
const THREAD_TIME: i32 = 3;

extern "C" {
    fn clock_gettime(clock: i32, time: *mut Time) -> i32;
}

/// Nanoseconds that this thread has run.
pub fn processor_time() -> i64 {
    let mut time = Time { seconds: 0, nanoseconds: 0 };
    assert_eq!(unsafe { clock_gettime(THREAD_TIME, &mut time) }, 0);
    1_000_000_000 * time.seconds + time.nanoseconds
}
