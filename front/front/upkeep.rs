//! What is done as time goes on, and what signals ask.
use super::{Front, MOMENT, SECOND};
use crate::files::Files;
use crate::lists::Lists;
use crate::reports::PIECE;
use crate::signals::HANG_UP;
use std::io::Read;
use std::time::Instant;

/// What is reported besides connections.
const TICK: u8 = 5;
const USERS: u8 = 6;
const ROOM: u8 = 7;

/// After so many seconds the files of the state are looked at.
const LOOKED: u64 = 5;

impl Front {
    /// Ends the connections whose clients have no more time, and sees when the next has none.
    fn end_late(&mut self, now: Instant) {
        let ends = self.slots.all().filter_map(|(slot, connection)| Some((slot, connection.end()?)));
        let (late, others): (Vec<_>, Vec<_>) = ends.partition(|(_, end)| *end <= now);
        let next = others.iter().map(|(_, end)| *end).min().unwrap_or(now + SECOND);
        self.moment = next.clamp(now + MOMENT, now + SECOND);
        for (slot, _) in late {
            self.close(slot);
        }
        self.entrance.end_late(now);
    }

    /// Tells the core that a second passed, and ends those whose clients have no more time.
    pub(super) fn pass_time(&mut self) {
        let now = Instant::now();
        if now >= self.moment {
            self.end_late(now);
        }
        if now >= self.second {
            self.second = now + SECOND;
            self.seconds += 1;
            self.turns.forget();
            self.core.look();
            let changed = self.lists.as_mut().and_then(Lists::changed);
            self.report_lists(changed);
            if self.core.has_room_for_time() {
                self.core.report(0, TICK, &[]);
                self.report_room();
            }
            if self.seconds.is_multiple_of(LOOKED) {
                self.look_at_files();
            }
        }
    }

    /// Reports how many bytes the core can still store.
    pub(super) fn report_room(&mut self) {
        if let Some(left) = self.room.measure(self.child.id()) {
            self.core.report(0, ROOM, &left.to_le_bytes());
        }
    }

    /// Ends the core at once where a file of the state isn't at its name any more: what it answered is kept in a file that the next start
    /// doesn't see.
    fn look_at_files(&mut self) {
        if let Some(file) = self.files.as_ref().and_then(Files::lost) {
            eprintln!("serve: {file} isn't the file that was opened: the server ends");
            self.is_lost = true;
            let _ = self.child.kill();
        }
    }

    /// Does what the signals ask that came.
    pub(super) fn do_as_signalled(&mut self) {
        let mut signal = [0];
        while (&self.signals).read(&mut signal).is_ok_and(|count| count > 0) {
            if i32::from(signal[0]) == HANG_UP {
                let read = self.lists.as_mut().map(Lists::read);
                self.report_lists(read);
            } else {
                self.is_ending = true;
            }
        }
    }

    /// Reports users and rules that were read, or says why they can't be.
    fn report_lists(&mut self, read: Option<Result<Vec<u8>, String>>) {
        match read {
            Some(Ok(text)) if text.len() <= PIECE => self.core.report(0, USERS, &text),
            Some(Ok(_)) => eprintln!("serve: users and access have more than {PIECE} bytes; they are as they were"),
            Some(Err(why)) => eprintln!("serve: {why}; users and access are as they were"),
            None => {}
        }
    }
}
