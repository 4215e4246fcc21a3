//! How many bytes can still be stored: as many as the disk of the state has, and the memory in which the core holds all files. What is
//! declared here of the C library is that of Linux with glibc or musl on 64 bits.
#![allow(unsafe_code)]

use std::ffi::{CString, c_char, c_int};
use std::fs;

/// It is measured anew once so many bytes came since, and a part of what was left.
const MANY: u64 = 1 << 20;
const PART: u64 = 16;

/// So much memory stays free besides: what requests take while they are answered.
const MARGIN: u64 = 16 << 20;

/// The room for a state, as it was measured last.
pub struct Room {
    /// The folder of the state; none where that isn't told.
    folder: Option<String>,
    left: u64,
    /// How many bytes came of clients since.
    came: u64,
}

impl Room {
    pub fn new(folder: Option<String>) -> Room {
        Room { folder, left: 0, came: 0 }
    }

    /// Bytes came of a client.
    pub fn add(&mut self, count: usize) {
        self.came += count as u64;
    }

    /// Whether so much came that less may be left by now.
    pub fn is_old(&self) -> bool {
        self.came >= MANY.max(self.left / PART)
    }

    /// Measures it for the core, a process.
    pub fn measure(&mut self, process: u32) -> Option<u64> {
        (self.left, self.came) = (left(self.folder.as_ref()?, process), 0);
        Some(self.left)
    }
}

/// A `struct statvfs`: of its 14 numbers the size of a block and how many are free for a user.
#[repr(C)]
#[derive(Default)]
struct Volume {
    _preferred: u64,
    block: u64,
    _all: u64,
    _free: u64,
    available: u64,
    _rest: [u64; 9],
}

unsafe extern "C" {
    fn statvfs(path: *const c_char, volume: *mut Volume) -> c_int;
}

/// How many bytes are free on the disk of a folder; none where that isn't known.
fn on_disk(folder: &str) -> Option<u64> {
    let path = CString::new(folder).ok()?;
    let mut volume = Volume::default();
    // SAFETY: `path` ends in a zero, `volume` is as large as a `struct statvfs`, and both live through the call.
    let status = unsafe { statvfs(path.as_ptr(), &mut volume) };
    (status == 0).then(|| volume.block.saturating_mul(volume.available))
}

/// The number of bytes in a line `name N kB` of a file of /proc; none where there is no such line.
fn kilobytes(file: &str, name: &str) -> Option<u64> {
    let text = fs::read_to_string(file).ok()?;
    let line = text.lines().find_map(|line| line.strip_prefix(name))?;
    let count: u64 = line.split_whitespace().next()?.parse().ok()?;
    count.checked_mul(1024)
}

/// How many bytes a process may still take of the memory that it may have; none where it may have all.
fn below_limit(process: u32) -> Option<u64> {
    let text = fs::read_to_string(format!("/proc/{process}/limits")).ok()?;
    let line = text.lines().find_map(|line| line.strip_prefix("Max address space"))?;
    let most: u64 = line.split_whitespace().next()?.parse().ok()?;
    let taken = kilobytes(&format!("/proc/{process}/status"), "VmSize:")?;
    Some(most.saturating_sub(taken))
}

/// How many bytes a process may take of the memory that is free, so that as much as it has then, which a start and a snapshot take besides, is
/// still free, and a margin; none where nothing is known.
fn in_memory(process: u32) -> Option<u64> {
    let taken = kilobytes(&format!("/proc/{process}/status"), "VmSize:")?;
    let free = [below_limit(process), kilobytes("/proc/meminfo", "MemAvailable:")].into_iter().flatten().min()?;
    Some(free.saturating_sub(taken.saturating_add(MARGIN)) / 2)
}

/// How many bytes this process can still store in a folder; 0 where nothing is known.
fn left(folder: &str, process: u32) -> u64 {
    [on_disk(folder), in_memory(process)].into_iter().flatten().min().unwrap_or(0)
}
