//! The time that this process has spent on a processor.

/// Seconds and nanoseconds, as C has them.
#[cfg(all(target_os = "linux", target_pointer_width = "64"))]
#[repr(C)]
struct Timespec {
    seconds: i64,
    nanoseconds: i64,
}

#[cfg(all(target_os = "linux", target_pointer_width = "64"))]
extern "C" {
    fn clock_gettime(clock: i32, time: *mut Timespec) -> i32;
}

/// Microseconds of processor time since the process began.
#[cfg(all(target_os = "linux", target_pointer_width = "64"))]
pub fn micros() -> f64 {
    const PROCESS_TIME: i32 = 2;
    let mut time = Timespec {
        seconds: 0,
        nanoseconds: 0,
    };
    // SAFETY: the pointer is to a place of the form that the function fills.
    let result = unsafe { clock_gettime(PROCESS_TIME, &mut time) };
    assert_eq!(result, 0, "the system gives processor time");
    time.seconds as f64 * 1e6 + time.nanoseconds as f64 / 1e3
}

/// Elsewhere microseconds of the wall clock since the first call.
#[cfg(not(all(target_os = "linux", target_pointer_width = "64")))]
pub fn micros() -> f64 {
    use std::sync::OnceLock;
    use std::time::Instant;
    static START: OnceLock<Instant> = OnceLock::new();
    START.get_or_init(Instant::now).elapsed().as_secs_f64() * 1e6
}
