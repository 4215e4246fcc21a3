//! The slots of the connections: who has one, and who goes where there are none left.
use crate::connection::Connection;
use std::collections::HashMap;
use std::net::{IpAddr, Ipv6Addr};

/// So many slots there are, as in the core.
pub const SLOTS: usize = 4096;

/// Where a connection comes from: its address; of version 6 the first 64 bits, since one host may have all addresses that begin so.
pub fn origin_of(address: IpAddr) -> IpAddr {
    match address.to_canonical() {
        IpAddr::V6(address) => Ipv6Addr::from_bits(address.to_bits() >> 64 << 64).into(),
        address => address,
    }
}

/// Where a connection may come to.
pub enum Place {
    Free,
    /// The slot of a connection that is to go for it.
    InPlaceOf(usize),
    /// Nobody may go, or somebody is about to, or is about to be idle: it waits.
    Later,
    /// Its origin has too many, each with a request under way.
    Nowhere,
}

pub struct Slots {
    places: Vec<Option<Connection>>,
    /// The slots that are free.
    free: Vec<usize>,
    /// How many connections are of an origin.
    counts: HashMap<IpAddr, usize>,
    /// At most so many are of one origin.
    most: usize,
}

impl Slots {
    /// Free slots, of which one origin may have so many.
    pub fn new(most: usize) -> Slots {
        let places = (0..SLOTS).map(|_| None).collect();
        Slots { places, free: (0..SLOTS).rev().collect(), counts: HashMap::new(), most }
    }

    pub fn get(&mut self, slot: usize) -> Option<&mut Connection> {
        self.places.get_mut(slot)?.as_mut()
    }

    /// The connections, with their slots.
    pub fn all(&self) -> impl Iterator<Item = (usize, &Connection)> {
        self.places.iter().enumerate().filter_map(|(slot, place)| Some((slot, place.as_ref()?)))
    }

    /// Puts a connection into a slot that is free; none where no slot is.
    pub fn put(&mut self, connection: Connection) -> Option<usize> {
        let slot = self.free.pop()?;
        *self.counts.entry(connection.origin).or_default() += 1;
        self.places[slot] = Some(connection);
        Some(slot)
    }

    /// Takes a connection out of its slot, which is free then.
    pub fn take(&mut self, slot: usize) -> Option<Connection> {
        let connection = self.places.get_mut(slot)?.take()?;
        self.free.push(slot);
        let count = self.count_of(connection.origin);
        match count > 1 {
            true => self.counts.insert(connection.origin, count - 1),
            false => self.counts.remove(&connection.origin),
        };
        Some(connection)
    }

    fn count_of(&self, origin: IpAddr) -> usize {
        self.counts.get(&origin).copied().unwrap_or(0)
    }

    /// The slot of the connection that waits longest of those for which this holds.
    fn longest(&self, holds: impl Fn(&Connection) -> bool) -> Option<usize> {
        let waiting = self.all().filter(|(_, connection)| holds(connection));
        waiting.min_by_key(|(_, connection)| connection.since()).map(|(slot, _)| slot)
    }

    /// Who goes for a connection of this origin where nothing is idle: what of the origin with most connections is under way longest, if that
    /// has two more.
    fn of_crowd(&self, origin: IpAddr) -> Option<usize> {
        let (crowd, count) = self.counts.iter().max_by_key(|(_, count)| **count)?;
        let is_larger = *count > self.count_of(origin) + 1;
        self.longest(|connection| is_larger && connection.origin == *crowd)
    }

    /// Where a connection of this origin may come to. What is idle longest goes for it.
    pub fn place_for(&self, origin: IpAddr) -> Place {
        let is_crowd = self.count_of(origin) >= self.most;
        if !is_crowd && !self.free.is_empty() {
            return Place::Free;
        }
        let may_go = |other: &Connection| !is_crowd || other.origin == origin;
        let is_any = |holds: fn(&Connection) -> bool| self.all().any(|(_, other)| may_go(other) && holds(other));
        if is_any(Connection::leaves) {
            return Place::Later;
        }
        if let Some(slot) = self.longest(|other| may_go(other) && other.is_idle()) {
            return Place::InPlaceOf(slot);
        }
        if is_any(Connection::is_new) {
            return Place::Later;
        }
        match is_crowd {
            true => Place::Nowhere,
            false => self.of_crowd(origin).map_or(Place::Later, Place::InPlaceOf),
        }
    }
}
