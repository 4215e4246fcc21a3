//! How much work the core has by what it is asked.
use crate::reports::PIECE;
use crate::spent::Spent;
use std::net::IpAddr;
use std::time::Duration;

/// What a report is taken for of which nothing is known.
const UNKNOWN: Duration = Duration::from_micros(250);

/// The bytes of one report are to be no more work than this.
const MOST: Duration = Duration::from_micros(500);

/// Of a new connection so many bytes are read for a report, and of none fewer than so many.
const FIRST: usize = 2048;
const LEAST: usize = 1024;

/// What each order is taken for besides its bytes: as much as so many of them.
const EACH: usize = 512;

/// The work by the reports of one connection.
pub struct Work {
    /// So many bytes are read for the next report at most.
    piece: usize,
    /// What a report is taken for.
    each: Duration,
    /// What the one was taken for that isn't answered yet, and how many bytes it had.
    asked: Option<(Duration, usize)>,
}

impl Work {
    pub fn new() -> Work {
        Work { piece: FIRST, each: UNKNOWN, asked: None }
    }

    /// How many bytes its next report may have.
    pub fn piece(&self) -> usize {
        self.piece
    }

    /// A report of so many bytes is made: what it is taken for.
    pub fn begin(&mut self, count: usize) -> Duration {
        self.asked = Some((self.each, count));
        self.each
    }

    /// A report of so many bytes was so much work. One that was as long as it may be and too much makes the next one shorter, one of little work longer.
    fn learn(&mut self, count: usize, work: Duration) {
        self.each = (self.each + work) / 2;
        if count == self.piece && work > MOST {
            self.piece = (self.piece / 2).max(LEAST);
        } else if count == self.piece && work < MOST / 2 {
            self.piece = (self.piece * 2).min(PIECE);
        }
    }
}

/// An order that came.
pub struct Done {
    pub slot: usize,
    pub origin: IpAddr,
    /// What its report was taken for, and how many bytes it had; none where that was that a connection came.
    asked: Option<(Duration, usize)>,
    /// How many bytes both have, and what they were.
    bytes: usize,
    pub work: Duration,
}

impl Done {
    /// What its report was taken for.
    pub fn taken(&self) -> Option<Duration> {
        self.asked.map(|(taken, _)| taken)
    }

    /// What comes of it for its connection.
    pub fn tell(&self, work: &mut Work) {
        if let Some((_, count)) = self.asked {
            work.learn(count, self.work);
        }
    }
}

/// The orders that came since the work was measured last.
pub struct Orders {
    spent: Spent,
    done: Vec<Done>,
}

impl Orders {
    /// Those of a core, a process.
    pub fn new(process: u32) -> Orders {
        Orders { spent: Spent::new(process), done: Vec::new() }
    }

    /// The core is asked anew: what it did before isn't counted.
    pub fn start(&mut self) {
        self.spent.since_last();
    }

    /// An order of so many bytes came for a connection.
    pub fn add(&mut self, slot: usize, origin: IpAddr, work: &mut Work, length: usize) {
        let asked = work.asked.take();
        let bytes = EACH + length + asked.map_or(0, |(_, count)| count);
        self.done.push(Done { slot, origin, asked, bytes, work: Duration::ZERO });
    }

    /// Those that came, each with its part of the work of all, by its bytes.
    pub fn measured(&mut self) -> Vec<Done> {
        if self.done.is_empty() {
            return Vec::new();
        }
        let spent = self.spent.since_last();
        let all: usize = self.done.iter().map(|done| done.bytes).sum();
        for done in &mut self.done {
            done.work = spent.mul_f64(done.bytes as f64 / all as f64);
        }
        std::mem::take(&mut self.done)
    }
}
