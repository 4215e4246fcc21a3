//! The clocks that reports tell: one that nobody sets, and the date.
use std::fs;
use std::time::{Duration, Instant, SystemTime, UNIX_EPOCH};

/// A clock that goes on steadily, also while the machine sleeps, and is never set.
pub struct Clock {
    begun: Instant,
    /// How long the machine was up then; none where it doesn't tell.
    up: Option<Duration>,
    /// So long it slept since then, in which `Instant` stands still.
    asleep: Duration,
}

impl Clock {
    pub fn new() -> Clock {
        Clock { begun: Instant::now(), up: uptime(), asleep: Duration::ZERO }
    }

    /// The seconds since it began.
    pub fn seconds(&self) -> u64 {
        (self.begun.elapsed() + self.asleep).as_secs()
    }

    /// Sees how long the machine slept.
    pub fn look(&mut self) {
        if let (Some(then), Some(now)) = (self.up, uptime()) {
            let asleep = now.saturating_sub(then).saturating_sub(self.begun.elapsed());
            self.asleep = self.asleep.max(asleep);
        }
    }
}

/// How long the machine is up, sleep included.
fn uptime() -> Option<Duration> {
    let text = fs::read_to_string("/proc/uptime").ok()?;
    Duration::try_from_secs_f64(text.split(' ').next()?.parse().ok()?).ok()
}

/// The seconds since 1970.
pub fn date() -> u64 {
    SystemTime::now().duration_since(UNIX_EPOCH).map_or(0, |time| time.as_secs())
}
