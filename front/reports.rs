//! Reports that wait for the core to take them.
use crate::clock::{Clock, date};
use std::io::{self, ErrorKind, Write};

/// The most bytes of a report.
pub const PIECE: usize = 65_536;

/// The bytes of a report that come before its own.
const HEAD: usize = 25;

/// No client is read while so many bytes of reports wait.
pub const MOST_WAITING: usize = 1 << 18;

/// Reports that aren't written yet, from `written` to `ended`. What is behind stays as it is, so that it isn't cleared each time.
///
/// Those that wait are moved to the front where that is free in at least their length; else the room is doubled. So it is at most four times what waits at
/// once, and a report: of each slot no more than a few short ones, and `MOST_WAITING`.
pub struct Reports {
    bytes: Vec<u8>,
    written: usize,
    ended: usize,
}

impl Reports {
    pub fn new() -> Reports {
        Reports { bytes: vec![0; 2 * PIECE], written: 0, ended: 0 }
    }

    /// How many bytes wait.
    pub fn waiting(&self) -> usize {
        self.ended - self.written
    }

    /// Whether a client may be read.
    pub fn has_room(&self) -> bool {
        self.waiting() < MOST_WAITING
    }

    /// Room for the bytes of a report, behind that for its head.
    pub fn room(&mut self) -> &mut [u8] {
        if self.ended + HEAD + PIECE > self.bytes.len() && self.written >= self.waiting() {
            self.bytes.copy_within(self.written..self.ended, 0);
            (self.written, self.ended) = (0, self.waiting());
        }
        let end = self.ended + HEAD + PIECE;
        if self.bytes.len() < end {
            self.bytes.resize(2 * end, 0);
        }
        &mut self.bytes[self.ended + HEAD..end]
    }

    /// Adds a report of so many bytes that were put into the room.
    pub fn add(&mut self, slot: usize, kind: u8, count: usize, clock: &Clock) {
        let head = &mut self.bytes[self.ended..self.ended + HEAD];
        head[..4].copy_from_slice(&(slot as u32).to_le_bytes());
        head[4] = kind;
        head[5..9].copy_from_slice(&(count as u32).to_le_bytes());
        head[9..17].copy_from_slice(&clock.seconds().to_le_bytes());
        head[17..].copy_from_slice(&date().to_le_bytes());
        self.ended += HEAD + count;
    }

    /// Writes as many as are taken now.
    pub fn write_to(&mut self, mut socket: impl Write) -> io::Result<()> {
        while self.written < self.ended {
            match socket.write(&self.bytes[self.written..self.ended]) {
                Ok(count) => self.written += count,
                Err(error) if error.kind() == ErrorKind::WouldBlock => return Ok(()),
                Err(error) if error.kind() == ErrorKind::Interrupted => {}
                Err(error) => return Err(error),
            }
        }
        (self.written, self.ended) = (0, 0);
        Ok(())
    }
}
