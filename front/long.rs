//! Who had the core for long, and lets others ask it for a while.
use crate::core::Core;
use crate::reports::PIECE;
use std::time::{Duration, Instant};

/// A reply that took the core so long, and has so many bytes, is a long one.
const LONG: Duration = Duration::from_millis(2);
const MANY: usize = PIECE;

/// After a long one others have the core for at least as long, and until it gave this many orders for each that waited meanwhile: so of their requests
/// fewer than one in a hundred wait for a long one. But it waits no more than so many times as long.
const EACH: u64 = 150;
const TIMES: u32 = 12;

/// The reply to the request of a connection that came last.
pub struct Last {
    /// How many bytes it has, how long the core was at it, how many others it owed an order then, and how many orders it had given when it was whole.
    bytes: usize,
    took: Duration,
    owed: u64,
    answered: u64,
    /// How many reports asked the core for an order when this connection did.
    asked: u64,
}

impl Last {
    pub fn new() -> Last {
        Last { bytes: 0, took: Duration::ZERO, owed: 0, answered: 0, asked: 0 }
    }

    /// A request begins.
    pub fn begin(&mut self) {
        (self.bytes, self.took, self.owed) = (0, Duration::ZERO, 0);
    }

    /// Its connection asks the core.
    pub fn ask(&mut self, core: &Core) {
        self.asked = core.asked() + 1;
    }

    /// Bytes of it came.
    pub fn add(&mut self, count: usize) {
        self.bytes += count;
    }

    /// The core gave an order for it: how long it was at that, and who waited.
    pub fn note(&mut self, core: &Core) {
        self.took += core.took();
        self.owed = self.owed.max(core.owed());
        self.answered = core.answered();
    }

    /// Whether it was a long one.
    pub fn is_long(&self) -> bool {
        self.took >= LONG && self.bytes >= MANY
    }

    /// Whether the others have their time before the next request, where this one was sent then: it was a long one, they haven't had that yet, and others ask.
    pub fn waits_for_others(&self, sent: Instant, core: &Core) -> bool {
        self.is_long() && !self.had_theirs(sent.elapsed(), core) && !core.is_free(self.asked)
    }

    /// Whether the others had their time in what passed since.
    fn had_theirs(&self, passed: Duration, core: &Core) -> bool {
        let answered = core.answered() - self.answered;
        passed >= self.took && answered >= EACH * self.owed || passed >= TIMES * self.took
    }
}
