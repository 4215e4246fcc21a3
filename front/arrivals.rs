//! Connections of proxies whose header hasn't come yet.
use crate::coming::HEAD_TIME;
use crate::entrance::Comer;
use crate::proxy::{self, Header};
use std::io::{self, ErrorKind, Read};
use std::net::{IpAddr, TcpStream};
use std::time::{Duration, Instant};

/// So many may there be; for one more the one that came first goes.
const MOST: usize = 1024;

/// At most one line is said in so long a time.
const PAUSE: Duration = Duration::from_secs(1);

/// A connection of a proxy.
struct Arrival {
    stream: TcpStream,
    proxy: IpAddr,
    since: Instant,
    /// Whether something of it is to be looked at, and whether no more comes.
    is_ready: bool,
    is_ended: bool,
}

/// They have places, by whose numbers the kernel tells of them.
pub struct Arrivals {
    places: Vec<Option<Arrival>>,
    /// The places that are to be looked at.
    ready: Vec<usize>,
    complaints: Complaints,
}

impl Arrivals {
    pub fn new() -> Arrivals {
        Arrivals {
            places: (0..MOST).map(|_| None).collect(),
            ready: Vec::new(),
            complaints: Complaints { next: Instant::now(), count: 0, last: String::new() },
        }
    }

    /// Takes a connection in; its place, and the connection, of which the kernel is to tell.
    pub fn add(&mut self, stream: TcpStream, proxy: IpAddr) -> io::Result<(usize, &TcpStream)> {
        stream.set_nonblocking(true)?;
        let free = self.places.iter().position(Option::is_none);
        let place = free.unwrap_or_else(|| self.first());
        if let Some(first) = &self.places[place] {
            self.complaints.add(first.proxy, "there are too many whose PROXY header hasn't come");
        }
        let arrival = self.places[place].insert(Arrival { stream, proxy, since: Instant::now(), is_ready: false, is_ended: false });
        Ok((place, &arrival.stream))
    }

    /// The place of the one that came first.
    fn first(&self) -> usize {
        let since = |place: &usize| self.places[*place].as_ref().map(|arrival| arrival.since);
        (0..MOST).min_by_key(since).unwrap_or(0)
    }

    /// Something came for one, or its end.
    pub fn note(&mut self, place: usize, is_ended: bool) {
        if let Some(arrival) = self.places.get_mut(place).and_then(Option::as_mut) {
            arrival.is_ended |= is_ended;
            if !std::mem::replace(&mut arrival.is_ready, true) {
                self.ready.push(place);
            }
        }
    }

    /// The next whose header came.
    pub fn next(&mut self) -> Option<Comer> {
        while let Some(place) = self.ready.pop() {
            let Some(mut arrival) = self.places[place].take() else {
                continue;
            };
            arrival.is_ready = false;
            match arrival.header() {
                Ok(Header::Whole(_, address)) => return Some(Comer::passed_on(arrival.stream, address.unwrap_or(arrival.proxy))),
                Ok(Header::Part) if !arrival.is_ended => self.places[place] = Some(arrival),
                Ok(Header::Part) => self.complaints.add(arrival.proxy, "its PROXY header didn't come whole"),
                Ok(Header::Broken(why)) => self.complaints.add(arrival.proxy, why),
                Err(_) => {} // it is gone, and sent nothing
            }
        }
        None
    }

    /// Closes those whose time has passed.
    pub fn end_late(&mut self, now: Instant) {
        for place in &mut self.places {
            if place.as_ref().is_some_and(|arrival| now >= arrival.since + HEAD_TIME)
                && let Some(late) = place.take()
            {
                self.complaints.add(late.proxy, "its PROXY header didn't come in time");
            }
        }
        self.complaints.say(now);
    }
}

impl Arrival {
    /// The header with which it begins, which is taken from it where it is whole.
    fn header(&mut self) -> io::Result<Header> {
        let mut bytes = [0; proxy::MOST];
        let count = match self.stream.peek(&mut bytes) {
            Ok(0) => return Err(ErrorKind::UnexpectedEof.into()),
            Ok(count) => count,
            Err(error) if matches!(error.kind(), ErrorKind::WouldBlock | ErrorKind::Interrupted) => 0,
            Err(error) => return Err(error),
        };
        let header = proxy::read(&bytes[..count]);
        if let Header::Whole(count, _) = header {
            self.stream.read_exact(&mut bytes[..count])?;
        }
        Ok(header)
    }
}

/// What is said of connections that were closed.
struct Complaints {
    /// When the next line may be said.
    next: Instant,
    /// Of how many none was said yet, and what would be of the last one.
    count: usize,
    last: String,
}

impl Complaints {
    fn add(&mut self, proxy: IpAddr, why: &str) {
        self.count += 1;
        self.last = format!("a connection of the proxy {proxy} was closed: {why}");
        self.say(Instant::now());
    }

    /// Says what wasn't said yet, once a line may be said.
    fn say(&mut self, now: Instant) {
        if self.count > 0 && now >= self.next {
            let more = if self.count > 1 { format!(" ({} since the last such line)", self.count) } else { String::new() };
            eprintln!("serve: {}{more}", self.last);
            (self.next, self.count) = (now + PAUSE, 0);
        }
    }
}
