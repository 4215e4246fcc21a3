//! Which sockets can go on, and how many may be open. What is declared here of the C library is that of Linux with glibc or musl on x86-64.
#![allow(unsafe_code)]

use std::ffi::c_int;
use std::io;
use std::os::fd::{AsFd, AsRawFd, FromRawFd, OwnedFd};
use std::time::Duration;

/// What is told of a socket: it may have bytes to be read, or room for bytes; its peer sends no more, or it broke; and that it broke.
pub const READABLE: u32 = 0x1;
pub const WRITABLE: u32 = 0x4;
pub const HUNG_UP: u32 = BROKE | 0x2000;
pub const BROKE: u32 = 0x8 | 0x10;

/// Only changes are told.
const CHANGES: u32 = 1 << 31;
const CLOSE_ON_EXEC: c_int = 0o2_000_000;
const ADD: c_int = 1;
const CHANGE: c_int = 3;
const OPEN_FILES: c_int = 7;

/// So many changes are told at once.
const MOST: usize = 1024;

/// A `struct epoll_event`, with a key of one's own.
#[repr(C, packed)]
#[derive(Clone, Copy, Default)]
pub struct Event {
    pub what: u32,
    pub key: u64,
}

unsafe extern "C" {
    fn epoll_create1(flags: c_int) -> c_int;
    fn epoll_ctl(set: c_int, how: c_int, socket: c_int, event: *const Event) -> c_int;
    fn epoll_wait(set: c_int, events: *mut Event, most: c_int, milliseconds: c_int) -> c_int;
    fn getrlimit(what: c_int, limits: *mut [u64; 2]) -> c_int;
    fn setrlimit(what: c_int, limits: *const [u64; 2]) -> c_int;
}

/// Sockets whose changes are waited for.
pub struct Poll {
    set: OwnedFd,
    events: Vec<Event>,
}

impl Poll {
    pub fn new() -> io::Result<Poll> {
        // SAFETY: the call takes no pointer.
        let set = unsafe { epoll_create1(CLOSE_ON_EXEC) };
        if set < 0 {
            return Err(io::Error::last_os_error());
        }
        // SAFETY: `set` is an open file that nobody else has.
        let set = unsafe { OwnedFd::from_raw_fd(set) };
        Ok(Poll { set, events: vec![Event::default(); MOST] })
    }

    /// Each change of a socket is told from now on with this key, until it is closed.
    pub fn add(&self, socket: &impl AsFd, key: u64) -> io::Result<()> {
        self.control(ADD, socket, key)
    }

    /// What is told of a socket that was added is told with this key from now on, and what it can do by now once more.
    pub fn change(&self, socket: &impl AsFd, key: u64) -> io::Result<()> {
        self.control(CHANGE, socket, key)
    }

    fn control(&self, how: c_int, socket: &impl AsFd, key: u64) -> io::Result<()> {
        let event = Event { what: READABLE | WRITABLE | HUNG_UP | CHANGES, key };
        // SAFETY: both files are open, and `event` lives through the call.
        match unsafe { epoll_ctl(self.set.as_raw_fd(), how, socket.as_fd().as_raw_fd(), &event) } {
            0 => Ok(()),
            _ => Err(io::Error::last_os_error()),
        }
    }

    /// The changes since the last call; waits so long for the first one.
    pub fn wait(&mut self, time: Duration) -> &[Event] {
        let milliseconds = time.as_micros().div_ceil(1000).min(60_000) as c_int;
        // SAFETY: there is room for as many events as are said, and it lives through the call.
        let count = unsafe { epoll_wait(self.set.as_raw_fd(), self.events.as_mut_ptr(), MOST as c_int, milliseconds) };
        &self.events[..count.max(0) as usize]
    }
}

/// Lets this process open as many files as it may.
pub fn raise_open_files() {
    let mut limits = [0; 2];
    // SAFETY: `limits` is a `struct rlimit`, the limit and what it may be raised to, and lives through both calls.
    unsafe {
        if getrlimit(OPEN_FILES, &mut limits) == 0 {
            setrlimit(OPEN_FILES, &[limits[1], limits[1]]);
        }
    }
}
