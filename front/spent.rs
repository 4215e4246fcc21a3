//! How long the processor was at a process, other processes left out. What is declared here of the C library is that of Linux with glibc or musl on 64 bits.
#![allow(unsafe_code)]

use std::ffi::c_int;
use std::time::Duration;

unsafe extern "C" {
    fn clock_getcpuclockid(process: c_int, clock: *mut c_int) -> c_int;
    fn clock_gettime(clock: c_int, time: *mut [i64; 2]) -> c_int;
}

/// The clock of a process that goes on while the processor is at it.
pub struct Spent {
    clock: c_int,
    last: Duration,
}

impl Spent {
    /// That of a child, of which nothing is known yet.
    pub fn new(process: u32) -> Spent {
        let mut clock = 0;
        // SAFETY: `clock` lives through the call.
        unsafe { clock_getcpuclockid(process as c_int, &mut clock) };
        Spent { clock, last: Duration::ZERO }
    }

    /// How long the processor was at it since this was asked last; zero where that can't be asked.
    pub fn since_last(&mut self) -> Duration {
        let mut time = [0; 2];
        // SAFETY: `time` is a `struct timespec`, seconds and nanoseconds, and lives through the call.
        if unsafe { clock_gettime(self.clock, &mut time) } != 0 {
            return Duration::ZERO;
        }
        let now = Duration::new(time[0] as u64, time[1] as u32);
        let since = now.saturating_sub(self.last);
        self.last = now;
        since
    }
}
