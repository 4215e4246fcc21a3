//! The core, behind one stream of reports and one of orders.
//!
//! A report is `slot u32, kind u8, length u32, seconds u64, date u64, bytes`, an order `slot u32, next u8, length u32, bytes`; numbers
//! are little-endian. `seconds` are those since the front began, by a clock that nobody sets; `date` those since 1970.
use crate::clock::Clock;
use crate::reports::{MOST_WAITING, Reports};
use std::io::{self, ErrorKind, Read};
use std::net::Shutdown;
use std::os::fd::OwnedFd;
use std::os::unix::net::UnixStream;
use std::process::{Child, Command, Stdio};
use std::time::{Duration, Instant};

/// The kinds of reports for which an order comes: a connection, bytes, and that bytes were sent.
const ASKING: [u8; 3] = [1, 2, 3];

/// The bytes of an order that come before its own.
const ORDER_HEAD: usize = 9;

/// A core that owes nothing for so long is free.
const FREE: Duration = Duration::from_millis(1);

/// So much of the orders is read at once.
const ROOM: usize = 1 << 18;

/// What is read of the orders: that one begins, of a slot, with what to do after it and so many bytes; bytes of it; or its end.
pub enum Part<'a> {
    Begin(usize, u8, usize),
    Bytes(usize, &'a [u8]),
    End(usize, u8),
}

/// The order of which a part was read: its slot, what to do then, and how many of its bytes are still to come.
struct Begun {
    slot: usize,
    next: u8,
    left: usize,
}

/// The core's input and output, one socket for both.
pub struct Core {
    socket: UnixStream,
    reports: Reports,
    /// Orders that were read, from `used` to `filled`.
    orders: Vec<u8>,
    used: usize,
    filled: usize,
    begun: Option<Begun>,
    /// Whether there may be more to read; and whether the core has ended, so that all that it wrote is to be read.
    readable: bool,
    hung_up: bool,
    clock: Clock,
    /// How many reports asked for an order, and how many of these orders came.
    asked: u64,
    answered: u64,
    /// Since when the core is at the next order, or owes none; and how long it was at the one that came last.
    since: Instant,
    took: Duration,
    /// How many reports had asked when a long reply was whole for which nobody waited; none where somebody did.
    quiet: Option<u64>,
}

impl Core {
    /// Starts the core.
    pub fn start(mut command: Command, clock: Clock) -> io::Result<(Core, Child)> {
        let (socket, of_core) = UnixStream::pair()?;
        socket.set_nonblocking(true)?;
        command.stdin(Stdio::from(OwnedFd::from(of_core.try_clone()?))).stdout(Stdio::from(OwnedFd::from(of_core)));
        let child = command.spawn()?;
        let core = Core {
            socket,
            reports: Reports::new(),
            orders: vec![0; ROOM],
            used: 0,
            filled: 0,
            begun: None,
            readable: false,
            hung_up: false,
            clock,
            asked: 0,
            answered: 0,
            since: Instant::now(),
            took: Duration::ZERO,
            quiet: None,
        };
        Ok((core, child))
    }

    pub fn socket(&self) -> &UnixStream {
        &self.socket
    }

    /// Sees how long the machine slept.
    pub fn look(&mut self) {
        self.clock.look();
    }

    /// What the kernel tells of it.
    pub fn note(&mut self, readable: bool, hung_up: bool) {
        self.readable |= readable;
        self.hung_up |= hung_up;
    }

    /// Whether there may be more to read.
    pub fn is_readable(&self) -> bool {
        self.readable || self.hung_up
    }

    /// Whether clients may be read.
    pub fn has_room(&self) -> bool {
        self.reports.has_room()
    }

    /// Whether it may be told that time passed: so it is, also where clients aren't read, but where it took nothing for very long.
    pub fn has_room_for_time(&self) -> bool {
        self.reports.waiting() < 2 * MOST_WAITING
    }

    /// How many reports asked for an order so far.
    pub fn asked(&self) -> u64 {
        self.asked
    }

    /// How many of these orders came.
    pub fn answered(&self) -> u64 {
        self.answered
    }

    /// How many of them the core still owes.
    pub fn owed(&self) -> u64 {
        self.asked - self.answered
    }

    /// How long the core was at the order that came last.
    pub fn took(&self) -> Duration {
        self.took
    }

    /// A long reply is whole.
    pub fn note_long(&mut self) {
        self.quiet = (self.owed() == 0).then_some(self.asked);
    }

    /// Whether a client that had the core for long may ask again, which asked last when so many reports had: nobody else asked since; or the core owes
    /// nothing, and did so for a moment, or nobody asked while it was at the last long reply and since.
    pub fn is_free(&self, asked: u64) -> bool {
        let is_quiet = self.quiet == Some(self.asked) || self.since.elapsed() >= FREE;
        self.asked == asked || self.asked == self.answered && is_quiet
    }

    /// A report asks for an order.
    fn ask(&mut self) {
        if self.asked == self.answered {
            self.since = Instant::now();
        }
        self.asked += 1;
    }

    /// An order came.
    fn answer(&mut self) {
        self.answered += 1;
        let now = Instant::now();
        (self.took, self.since) = (now - self.since, now);
    }

    /// Room for the bytes of a report.
    pub fn room(&mut self) -> &mut [u8] {
        self.reports.room()
    }

    /// Reports so many bytes that were put into the room.
    pub fn report_room(&mut self, slot: usize, kind: u8, count: usize) {
        self.reports.add(slot, kind, count, &self.clock);
        if ASKING.contains(&kind) {
            self.ask();
        }
    }

    /// Reports bytes, at most as many as a report has.
    pub fn report(&mut self, slot: usize, kind: u8, bytes: &[u8]) {
        self.room()[..bytes.len()].copy_from_slice(bytes);
        self.report_room(slot, kind, bytes.len());
    }

    /// Writes as many reports as the core takes now.
    pub fn flush(&mut self) -> io::Result<()> {
        self.reports.write_to(&self.socket)
    }

    /// Ends the core's input, once all reports are written: it answers what it has, and ends.
    pub fn end_input(&self) {
        if self.reports.waiting() == 0 {
            let _ = self.socket.shutdown(Shutdown::Write);
        }
    }

    /// Reads orders once. False where the core has ended.
    pub fn read(&mut self) -> io::Result<bool> {
        if self.used > 0 {
            self.orders.copy_within(self.used..self.filled, 0);
            (self.used, self.filled) = (0, self.filled - self.used);
        }
        match (&self.socket).read(&mut self.orders[self.filled..]) {
            Ok(0) => Ok(false),
            Ok(count) => {
                self.filled += count;
                self.readable = self.filled == self.orders.len();
                Ok(true)
            }
            Err(error) if error.kind() == ErrorKind::WouldBlock => {
                self.readable = false;
                Ok(true)
            }
            Err(error) if error.kind() == ErrorKind::Interrupted => Ok(true),
            Err(error) => Err(error),
        }
    }

    /// The next part of what was read.
    pub fn part(&mut self) -> Option<Part<'_>> {
        let rest = &self.orders[self.used..self.filled];
        let Some(begun) = &mut self.begun else {
            let (head, _) = rest.split_at_checked(ORDER_HEAD)?;
            let number = |at: usize| u32::from_le_bytes([head[at], head[at + 1], head[at + 2], head[at + 3]]) as usize;
            let (slot, next, length) = (number(0), head[4], number(5));
            self.begun = Some(Begun { slot, next, left: length });
            self.used += ORDER_HEAD;
            self.answer();
            return Some(Part::Begin(slot, next, length));
        };
        let slot = begun.slot;
        if begun.left == 0 {
            let next = begun.next;
            self.begun = None;
            return Some(Part::End(slot, next));
        }
        let count = begun.left.min(rest.len());
        if count == 0 {
            return None;
        }
        begun.left -= count;
        let from = self.used;
        self.used += count;
        Some(Part::Bytes(slot, &self.orders[from..from + count]))
    }
}
