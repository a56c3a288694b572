//! The clock.

use std::time::Duration;

/// `struct timespec`.
#[repr(C)]
struct Timespec {
    seconds: i64,
    nanoseconds: i64,
}

/// `CLOCK_PROCESS_CPUTIME_ID` of Linux.
const PROCESS_CLOCK: i32 = 2;

extern "C" {
    fn clock_gettime(clock: i32, time: *mut Timespec) -> i32;
}

/// The processor time that this process has used so far.
pub fn processor_time() -> Duration {
    let mut time = Timespec {
        seconds: 0,
        nanoseconds: 0,
    };
    // SAFETY: the pointer is to one timespec.
    let error = unsafe { clock_gettime(PROCESS_CLOCK, &mut time) };
    assert_eq!(error, 0, "the process has a clock");
    Duration::new(time.seconds as u64, time.nanoseconds as u32)
}
