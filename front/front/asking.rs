//! Who asks the core, and when: each connection in its turn, and not before there is room for what the core may answer.
use super::{Front, GOT, SENT};
use crate::connection::Turn;
use std::collections::HashMap;
use std::net::IpAddr;
use std::time::Instant;

impl Front {
    /// Whether somebody waits who may ask now.
    pub(super) fn may_give_turns(&self) -> bool {
        self.turns.is_due() && self.may_ask()
    }

    /// Whether there is room for a report and its order. Where there is none for an order, and none is owed, there will be some at once.
    fn may_ask(&self) -> bool {
        self.core.has_room() && (self.blocks.has_room(self.core.owed()) || self.core.owed() == 0)
    }

    /// Gives turns, as long as the core may be asked more.
    pub(super) fn give_turns(&mut self) {
        while self.may_give_turns()
            && let Some((origin, slot)) = self.turns.next()
        {
            if !self.blocks.has_room(self.core.owed()) {
                self.make_room();
            }
            if self.room.is_old() {
                self.report_room();
            }
            self.give_turn(origin, slot);
        }
    }

    fn give_turn(&mut self, origin: IpAddr, slot: usize) {
        let waits = self.slots.get(slot).filter(|connection| connection.is_queued() && connection.origin == origin);
        let Some(connection) = waits else {
            return; // it is gone
        };
        match connection.take_turn(&mut self.core, self.times) {
            Turn::Nothing => {}
            Turn::Later => self.later.push(slot),
            Turn::Sent => self.tell_sent(origin, slot),
            Turn::Got(count) => {
                self.room.add(count);
                self.count(origin, slot, count);
                self.core.report_room(slot, GOT, count);
            }
            Turn::Gone => self.end(slot),
        }
    }

    /// Tells the core that the bytes of an order were sent.
    fn tell_sent(&mut self, origin: IpAddr, slot: usize) {
        self.count(origin, slot, 0);
        self.core.report(slot, SENT, &[]);
    }

    /// Counts what the core is about to be asked for a connection, by so many bytes.
    fn count(&mut self, origin: IpAddr, slot: usize, bytes: usize) {
        if self.core.owed() == 0 {
            self.orders.start();
        }
        if let Some(connection) = self.slots.get(slot) {
            self.turns.begin(origin, connection.work.begin(bytes));
        }
    }

    /// Who waits longest for others goes first.
    pub(super) fn go_on_with_later(&mut self) {
        for slot in std::mem::take(&mut self.later) {
            if let Some(connection) = self.slots.get(slot).filter(|connection| connection.is_queued()) {
                self.turns.add(connection.origin, slot);
            }
        }
    }

    /// An order begins: where its connection has little left to send, and nobody else asks, the core goes on with the next bytes at once.
    pub(super) fn begin_order(&mut self, slot: usize, next: u8, length: usize) {
        let may_be = self.turns.is_empty() && self.turns.is_open() && self.may_ask() && self.blocks.is_half_free();
        let Some(connection) = self.slots.get(slot) else {
            return;
        };
        let origin = connection.origin;
        self.orders.add(slot, origin, &mut connection.work, length);
        if connection.begin(next, may_be, &self.core) {
            self.tell_sent(origin, slot);
        }
    }

    /// Sees how much work those orders were that came.
    pub(super) fn measure_orders(&mut self) {
        for done in self.orders.measured() {
            self.turns.end(done.origin, done.taken(), done.work);
            if let Some(connection) = self.slots.get(done.slot) {
                done.tell(&mut connection.work);
            }
        }
    }

    /// Closes connections, until an eighth of the memory for what clients haven't taken is free: of the address that has most of it the one that goes on
    /// least.
    fn make_room(&mut self) {
        let mut holding: Vec<(usize, IpAddr, usize, Instant)> = Vec::new();
        let mut sums: HashMap<IpAddr, usize> = HashMap::new();
        for (slot, connection) in self.slots.all().filter(|(_, connection)| connection.blocks() > 0) {
            holding.push((slot, connection.origin, connection.blocks(), connection.since()));
            *sums.entry(connection.origin).or_default() += connection.blocks();
        }
        while self.blocks.wanted() > 0
            && let Some((origin, _)) = sums.iter().max_by_key(|(_, count)| **count)
        {
            let origin = *origin;
            let of_origin = holding.iter().enumerate().filter(|(_, (_, other, _, _))| *other == origin);
            let Some((at, _)) = of_origin.min_by_key(|(_, (_, _, _, since))| *since) else {
                return;
            };
            let (slot, _, count, _) = holding.swap_remove(at);
            sums.entry(origin).and_modify(|sum| *sum -= count);
            self.close(slot);
        }
    }
}
