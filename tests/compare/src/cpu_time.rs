//! CPU time, which a machine busy with other work disturbs less than the time
//! that passes. Linux alone.

use std::ffi::{c_int, c_long};
use std::time::Duration;

const CLOCK_PROCESS_CPUTIME_ID: c_int = 2;

#[repr(C)]
struct Timespec {
    seconds: c_long,
    nanoseconds: c_long,
}

extern "C" {
    fn clock_gettime(clock: c_int, time: *mut Timespec) -> c_int;
}

/// The CPU time that this process has used.
pub fn cpu_time() -> Duration {
    let mut time = Timespec {
        seconds: 0,
        nanoseconds: 0,
    };
    // SAFETY: the pointer is that of a `Timespec`, which the function writes.
    let status = unsafe { clock_gettime(CLOCK_PROCESS_CPUTIME_ID, &mut time) };
    assert_eq!(status, 0, "the clock is there");
    Duration::new(time.seconds as u64, time.nanoseconds as u32)
}
