//! Where clients come in.
use crate::arrivals::Arrivals;
use crate::fail;
use crate::poll::Poll;
use crate::proxy::Proxies;
use crate::slots::origin_of;
use std::io::{self, ErrorKind};
use std::net::{IpAddr, TcpListener, TcpStream};
use std::thread;
use std::time::{Duration, Instant};

/// So long an address is waited for that another server is letting go.
const FREED: Duration = Duration::from_secs(3);
const MOMENT: Duration = Duration::from_millis(20);

/// Who comes in.
pub struct Comer {
    pub stream: TcpStream,
    /// Where it comes from, and the part of that by which connections are counted.
    pub address: IpAddr,
    pub origin: IpAddr,
    /// Whether a proxy passes it on: then the kernel tells of it already, by another key.
    pub is_passed_on: bool,
}

impl Comer {
    fn new(stream: TcpStream, address: IpAddr) -> Comer {
        Comer { stream, address, origin: origin_of(address), is_passed_on: false }
    }

    /// One that comes from this address by a proxy.
    pub fn passed_on(stream: TcpStream, address: IpAddr) -> Comer {
        Comer { stream, address, origin: origin_of(address), is_passed_on: true }
    }
}

/// The address at which is listened.
pub struct Entrance {
    address: String,
    /// None until the core answers, where its state is waited for.
    listener: Option<TcpListener>,
    /// Whether somebody may be waiting to be let in.
    comes: bool,
    /// Who waits for a slot.
    waiting: Option<Comer>,
    /// Whose connections begin with a header, and those whose header hasn't come.
    proxies: Proxies,
    arrivals: Arrivals,
}

impl Entrance {
    /// An address, at which is listened at once where it is to be.
    pub fn new(address: &str, at_once: bool, proxies: Proxies) -> Entrance {
        let listener = at_once.then(|| bind(address));
        Entrance { address: address.to_string(), listener, comes: true, waiting: None, proxies, arrivals: Arrivals::new() }
    }

    /// Listens, and has it told of who comes; the number of the port.
    pub fn open(&mut self, poll: &Poll, key: u64) -> u16 {
        let listener = self.listener.get_or_insert_with(|| bind(&self.address));
        let opened = listener.set_nonblocking(true).and_then(|()| poll.add(listener, key)).and_then(|()| listener.local_addr());
        opened.unwrap_or_else(|error| fail(&self.address, error)).port()
    }

    /// Somebody came.
    pub fn note(&mut self) {
        self.comes = true;
    }

    /// Something came of a proxy's connection in this place, or its end.
    pub fn note_arrival(&mut self, place: usize, is_ended: bool) {
        self.arrivals.note(place, is_ended);
    }

    /// Closes the connections of proxies whose header didn't come in time.
    pub fn end_late(&mut self, now: Instant) {
        self.arrivals.end_late(now);
    }

    /// The next who comes in at once; none where somebody waits already, or nobody comes.
    pub fn next(&mut self, poll: &Poll, key: u64) -> Option<Comer> {
        if let Some(comer) = self.waiting.take().or_else(|| self.arrivals.next()) {
            return Some(comer);
        }
        while self.comes {
            match self.accept(poll, key) {
                Ok(Some(comer)) => return Some(comer),
                Ok(None) => {}
                Err(error) => {
                    self.comes = error.kind() != ErrorKind::WouldBlock; // else there is no more room for sockets: it is tried again in a moment
                    return None;
                }
            }
        }
        None
    }

    /// Who has no place waits.
    pub fn keep(&mut self, comer: Comer) {
        self.waiting = Some(comer);
    }

    /// Lets one in; none where it is a proxy's, whose header is to come: the kernel tells of it by the key and its place.
    fn accept(&mut self, poll: &Poll, key: u64) -> io::Result<Option<Comer>> {
        let listener = self.listener.as_ref().ok_or(ErrorKind::WouldBlock)?;
        let (stream, peer) = listener.accept()?;
        if !self.proxies.has(peer.ip()) {
            return Ok(Some(Comer::new(stream, peer.ip())));
        }
        if let Ok((place, stream)) = self.arrivals.add(stream, peer.ip().to_canonical()) {
            let _ = poll.add(stream, key + place as u64); // where that fails, its time passes
        }
        Ok(None)
    }
}

/// Listens at an address. One that is in use is tried again for a while: another server may be letting it go.
fn bind(address: &str) -> TcpListener {
    let begun = Instant::now();
    loop {
        match TcpListener::bind(address) {
            Ok(listener) => return listener,
            Err(error) if error.kind() == ErrorKind::AddrInUse && begun.elapsed() < FREED => thread::sleep(MOMENT),
            Err(error) => fail(address, error),
        }
    }
}
