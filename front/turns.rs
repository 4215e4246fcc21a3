//! Whose turn it is to ask the core: that of the address for which the core worked least.
//!
//! The core answers what it is asked in order, so who asks waits for all that was asked before. No more is asked than keeps it at work for `MOST_AHEAD`, or
//! twice as long where it was asked nothing for an address, as far as it can be told by what was asked before; all else waits here. An address that comes
//! anew begins where the one is for which the core worked least of those that wait.
use std::collections::{BTreeSet, HashMap, VecDeque};
use std::net::IpAddr;
use std::time::Duration;

/// So much work the core has ahead of it at most.
const MOST_AHEAD: Duration = Duration::from_millis(2);

/// Past so many addresses those are forgotten that ask nothing.
const MOST_SHARES: usize = 8192;

/// An address, as far as it asks.
#[derive(Default)]
struct Share {
    /// How long the core worked for it, and for those that were ahead of it when it came.
    worked: Duration,
    /// How many orders the core owes it.
    owed: usize,
    /// The slots of its connections that wait for their turn.
    slots: VecDeque<usize>,
}

#[derive(Default)]
pub struct Turns {
    shares: HashMap<IpAddr, Share>,
    /// The addresses of which some wait, by the work for them.
    waiting: BTreeSet<(Duration, IpAddr)>,
    /// The least of that when one had its turn last.
    least: Duration,
    /// What the core was asked and hasn't answered, by the work that it is taken for.
    ahead: Duration,
}

impl Turns {
    /// Whether nobody waits for a turn.
    pub fn is_empty(&self) -> bool {
        self.waiting.is_empty()
    }

    /// Whether the core may be asked more by anybody.
    pub fn is_open(&self) -> bool {
        self.ahead < MOST_AHEAD
    }

    /// Whether somebody has a turn now.
    pub fn is_due(&self) -> bool {
        let Some((_, origin)) = self.waiting.first() else {
            return false;
        };
        let is_first = self.shares.get(origin).is_some_and(|share| share.owed == 0);
        self.is_open() || is_first && self.ahead < 2 * MOST_AHEAD
    }

    /// The connection in a slot waits for its turn.
    pub fn add(&mut self, origin: IpAddr, slot: usize) {
        let share = self.shares.entry(origin).or_default();
        if share.slots.is_empty() {
            share.worked = share.worked.max(self.least);
            self.waiting.insert((share.worked, origin));
        }
        share.slots.push_back(slot);
    }

    /// Whose turn it is: an address, and the slot that waits longest of it.
    pub fn next(&mut self) -> Option<(IpAddr, usize)> {
        let (worked, origin) = self.waiting.pop_first()?;
        let share = self.shares.get_mut(&origin)?;
        let slot = share.slots.pop_front()?;
        if !share.slots.is_empty() {
            self.waiting.insert((worked, origin));
        }
        self.least = self.least.max(worked);
        Some((origin, slot))
    }

    /// The core is asked for an address, which is taken for so much work.
    pub fn begin(&mut self, origin: IpAddr, work: Duration) {
        self.ahead += work;
        self.shares.entry(origin).or_default().owed += 1;
        self.work(origin, work, Duration::ZERO);
    }

    /// The core answered what was so much work, and was taken for so much, if it was counted.
    pub fn end(&mut self, origin: IpAddr, taken: Option<Duration>, work: Duration) {
        if let Some(taken) = taken {
            self.ahead = self.ahead.saturating_sub(taken);
            self.shares.entry(origin).or_default().owed -= 1;
        }
        self.work(origin, work, taken.unwrap_or_default());
    }

    /// The core worked so long for an address, of which a part was counted before.
    fn work(&mut self, origin: IpAddr, work: Duration, counted: Duration) {
        let share = self.shares.entry(origin).or_default();
        let before = share.worked;
        share.worked = (before + work).saturating_sub(counted);
        if self.waiting.remove(&(before, origin)) {
            self.waiting.insert((share.worked, origin));
        }
    }

    /// Forgets addresses of which none waits, where that changes nothing; or where they are too many.
    pub fn forget(&mut self) {
        let (least, are_many) = (self.least, self.shares.len() > MOST_SHARES);
        self.shares.retain(|_, share| !share.slots.is_empty() || share.owed > 0 || share.worked > least && !are_many);
    }
}
