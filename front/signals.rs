//! The signals that the front hears: they are blocked in every thread, and one thread waits for them. What is declared here of the C
//! library is that of Linux with glibc or musl on 64 bits.
#![allow(unsafe_code)]

use std::ffi::c_int;
use std::ptr;

/// The terminal was closed, or the users are to be read again.
pub const HANG_UP: c_int = 1;
/// Ctrl-C.
pub const INTERRUPT: c_int = 2;
/// To end.
pub const TERMINATE: c_int = 15;

const BLOCK: c_int = 0;

/// A `sigset_t`: 1,024 bits.
#[repr(C)]
pub struct Signals([u64; 16]);

unsafe extern "C" {
    fn sigemptyset(set: *mut Signals) -> c_int;
    fn sigaddset(set: *mut Signals, signal: c_int) -> c_int;
    fn pthread_sigmask(how: c_int, set: *const Signals, old: *mut Signals) -> c_int;
    fn sigwait(set: *const Signals, signal: *mut c_int) -> c_int;
}

impl Signals {
    /// Blocks these signals in this thread, and in those that it begins from now on.
    pub fn block(signals: &[c_int]) -> Signals {
        let mut set = Signals([0; 16]);
        // SAFETY: `set` is as large as a `sigset_t`, and lives through these calls; none keeps a pointer.
        unsafe {
            sigemptyset(&mut set);
            for signal in signals {
                sigaddset(&mut set, *signal);
            }
            pthread_sigmask(BLOCK, &set, ptr::null_mut());
        }
        set
    }

    /// Waits for the next of these signals.
    pub fn next(&self) -> c_int {
        let mut signal = 0;
        // SAFETY: both pointers are to values that live through the call.
        unsafe { sigwait(self, &mut signal) };
        signal
    }
}
