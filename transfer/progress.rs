//! How far a transfer is: on a terminal a line that changes, and at the end the counts.
use std::fmt::Display;
use std::io::{IsTerminal, stderr};
use std::sync::atomic::{AtomicU64, Ordering};
use std::sync::mpsc::{RecvTimeoutError, channel};
use std::sync::Mutex;
use std::thread;
use std::time::{Duration, Instant};

/// How often the line changes.
const MOMENT: Duration = Duration::from_millis(200);

pub struct Progress {
    all_files: u64,
    all_bytes: u64,
    files: AtomicU64,
    bytes: AtomicU64,
    /// How many files and folders were named, since they can't be transferred.
    named: AtomicU64,
    begun: Instant,
    shows: bool,
    line: Mutex<()>,
}

impl Progress {
    pub fn new(all_files: u64, all_bytes: u64) -> Progress {
        let (files, bytes, named) = (AtomicU64::new(0), AtomicU64::new(0), AtomicU64::new(0));
        Progress { all_files, all_bytes, files, bytes, named, begun: Instant::now(), shows: stderr().is_terminal(), line: Mutex::new(()) }
    }

    pub fn add(&self, files: u64, bytes: u64) {
        self.files.fetch_add(files, Ordering::Relaxed);
        self.bytes.fetch_add(bytes, Ordering::Relaxed);
    }

    /// Takes bytes off again that were counted and aren't there.
    pub fn take_back(&self, bytes: u64) {
        self.bytes.fetch_sub(bytes, Ordering::Relaxed);
    }

    /// Names what can't be transferred, and why.
    pub fn name(&self, what: impl Display, why: impl Display) {
        let _line = self.line.lock();
        self.named.fetch_add(1, Ordering::Relaxed);
        eprintln!("{}vuldarg: {what}: {why}", if self.shows { "\r\x1b[K" } else { "" });
    }

    pub fn named(&self) -> u64 {
        self.named.load(Ordering::Relaxed)
    }

    fn show(&self) {
        let (files, bytes) = (self.files.load(Ordering::Relaxed), self.bytes.load(Ordering::Relaxed));
        let elapsed = self.begun.elapsed().as_secs_f64();
        let rate = bytes as f64 / elapsed.max(0.001);
        let left = self.all_bytes.saturating_sub(bytes) as f64 / rate.max(1.0);
        let _line = self.line.lock();
        eprint!(
            "\r{files} of {} files, {} of {} MB, {:.0} MB/s, {} s left\x1b[K",
            self.all_files,
            bytes / 1_000_000,
            self.all_bytes / 1_000_000,
            rate / 1e6,
            left.ceil()
        );
    }

    /// Shows how far it is while something is done.
    pub fn during<T>(&self, work: impl FnOnce() -> T) -> T {
        if !self.shows {
            return work();
        }
        let (ended, ends) = channel::<()>();
        thread::scope(|threads| {
            threads.spawn(move || {
                while let Err(RecvTimeoutError::Timeout) = ends.recv_timeout(MOMENT) {
                    self.show();
                }
                eprint!("\r\x1b[K");
            });
            let done = work();
            drop(ended);
            done
        })
    }

    /// What was done, in one line.
    pub fn counts(&self, folders: usize) -> String {
        let (files, bytes) = (self.files.load(Ordering::Relaxed), self.bytes.load(Ordering::Relaxed));
        let more = match self.named() {
            0 => String::new(),
            count => format!("; {count} not, as said"),
        };
        format!("{files} files with {bytes} bytes in {folders} folders, {:.1} seconds{more}", self.begun.elapsed().as_secs_f64())
    }
}
