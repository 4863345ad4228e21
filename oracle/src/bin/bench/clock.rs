//! CPU time of the calling thread.

#[repr(C)]
struct Timespec {
    seconds: i64,
    nanoseconds: i64,
}

extern "C" {
    fn clock_gettime(clock: i32, time: *mut Timespec) -> i32;
}

/// Milliseconds of CPU time that this thread has used.
fn now() -> f64 {
    const THREAD_CPU_TIME: i32 = 3;
    let mut time = Timespec {
        seconds: 0,
        nanoseconds: 0,
    };
    let status = unsafe { clock_gettime(THREAD_CPU_TIME, &mut time) };
    assert_eq!(status, 0, "no clock of the thread's CPU time");
    time.seconds as f64 * 1.0e3 + time.nanoseconds as f64 * 1.0e-6
}

/// What a function gives, and the milliseconds it took. What it gives is dropped by the caller,
/// outside the time taken.
pub fn timed<T>(function: impl FnOnce() -> T) -> (T, f64) {
    let start = now();
    let given = std::hint::black_box(function());
    (given, now() - start)
}

/// The least of some times.
pub fn least(times: usize, mut once: impl FnMut() -> f64) -> f64 {
    (0..times).map(|_| once()).fold(f64::INFINITY, f64::min)
}
