//! The processor time of this thread. What else the machine runs takes turns with a long call and would
//! be counted with it by the clock on the wall.

use std::time::Duration;

/// The processor time that this thread has taken so far.
#[cfg(target_os = "linux")]
#[allow(unsafe_code)]
pub fn now() -> Duration {
    /// `struct timespec`.
    #[repr(C)]
    struct Time {
        seconds: std::ffi::c_long,
        nanoseconds: std::ffi::c_long,
    }

    unsafe extern "C" {
        fn clock_gettime(clock: std::ffi::c_int, time: *mut Time) -> std::ffi::c_int;
    }

    /// `CLOCK_THREAD_CPUTIME_ID`.
    const THREAD_TIME: std::ffi::c_int = 3;

    let mut time = Time {
        seconds: 0,
        nanoseconds: 0,
    };
    // SAFETY: the pointer is to a `struct timespec` that is borrowed for the call alone.
    let status = unsafe { clock_gettime(THREAD_TIME, &mut time) };
    assert_eq!(status, 0, "this thread's time cannot be read");
    Duration::new(time.seconds as u64, time.nanoseconds as u32)
}

/// Elsewhere the clock on the wall has to do.
#[cfg(not(target_os = "linux"))]
pub fn now() -> Duration {
    use std::sync::OnceLock;
    use std::time::Instant;

    static START: OnceLock<Instant> = OnceLock::new();
    START.get_or_init(Instant::now).elapsed()
}
