//! The processor time of this thread: what else runs on the machine does not count.

/// Seconds and nanoseconds, as the system gives them.
#[repr(C)]
struct Time {
    seconds: i64,
    nanoseconds: i64,
}

/// Linux's number of the clock.
const THREAD_CPU_TIME: i32 = 3;

extern "C" {
    fn clock_gettime(clock: i32, time: *mut Time) -> i32;
}

/// Nanoseconds of processor time so far.
fn now() -> u64 {
    let mut time = Time { seconds: 0, nanoseconds: 0 };
    // The system writes into the one place that it is given.
    let status = unsafe { clock_gettime(THREAD_CPU_TIME, &mut time) };
    assert_eq!(status, 0, "no clock of processor time");
    time.seconds as u64 * 1_000_000_000 + time.nanoseconds as u64
}

/// What the work gives, and the nanoseconds of processor time that it takes.
pub fn timed<T>(work: impl FnOnce() -> T) -> (T, u64) {
    let start = now();
    let result = work();
    (result, now() - start)
}
