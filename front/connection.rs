//! A connection: it carries out the orders of the core, as far as its client lets it. What its client has time for is counted while it is
//! waited for the client alone, so a core that is busy takes nothing of that.
use crate::coming::{Coming, READ, Times};
use crate::core::Core;
use crate::long::Last;
use crate::reports::PIECE;
use crate::sockets;
use crate::unsent::{Blocks, Unsent};
use crate::work::Work;
use std::io::{self, ErrorKind, Read, Write};
use std::net::{IpAddr, Shutdown, TcpStream};
use std::time::{Duration, Instant};

/// The core is asked for the next bytes once no more than so many are left to be sent.
const AHEAD: usize = PIECE;

/// The time in which a client may read what was sent last, though it may still be sending.
const LINGER: Duration = Duration::from_secs(2);

/// What the core may order to be done after the bytes were written, but to read: to say that they were, or to close.
const TELL: u8 = 0;
const CLOSE: u8 = 2;

/// What a connection does.
#[derive(Clone, Copy, PartialEq)]
enum Doing {
    /// The core owes it an order.
    Waits,
    /// It sends the bytes of an order.
    Sends,
    /// It reads once.
    Reads,
    /// Its client may read what was sent last.
    Lingers,
}

/// What a connection goes on with.
#[derive(PartialEq)]
pub enum Outcome {
    /// It waits: for the core, or for its client.
    Waits,
    /// It would ask the core, once it has its turn.
    Asks,
    /// It drops what comes, once others had a turn.
    Lingers,
    /// It is gone.
    Gone,
}

/// What it does in its turn.
pub enum Turn {
    /// Nothing: there is nothing to be asked.
    Nothing,
    /// It lets others have their time.
    Later,
    /// It tells that the bytes of an order were sent.
    Sent,
    /// It tells that so many bytes came, which are in the room of a report.
    Got(usize),
    /// It is gone.
    Gone,
}

/// A connection in its slot.
pub struct Connection {
    stream: TcpStream,
    pub origin: IpAddr,
    doing: Doing,
    /// What is to be done after the bytes of the order; none as long as not all of them came from the core.
    next: Option<u8>,
    /// Bytes that the client hasn't taken yet; so many of a piece were taken.
    unsent: Unsent,
    taken: usize,
    /// Whether the core was told that the bytes of the order that comes are sent, though they aren't yet.
    is_told: bool,
    coming: Coming,
    last: Last,
    pub work: Work,
    /// Since when it does that.
    since: Instant,
    /// When its client has no more time.
    end: Option<Instant>,
    /// What the kernel may still have for it, as far as it told.
    readable: bool,
    writable: bool,
    hung_up: bool,
    /// Whether it waits for its turn.
    is_queued: bool,
    /// Whether it is to go as soon as the core's order is there.
    leaves: bool,
}

impl Connection {
    pub fn new(stream: TcpStream, origin: IpAddr, blocks: &Blocks) -> io::Result<Connection> {
        stream.set_nonblocking(true)?;
        stream.set_nodelay(true)?;
        sockets::keep_few_unsent(&stream);
        Ok(Connection {
            stream,
            origin,
            doing: Doing::Waits,
            next: None,
            unsent: Unsent::new(blocks),
            taken: 0,
            is_told: false,
            coming: Coming::new(READ),
            last: Last::new(),
            work: Work::new(),
            since: Instant::now(),
            end: None,
            readable: false,
            writable: true,
            hung_up: false,
            is_queued: false,
            leaves: false,
        })
    }

    pub fn stream(&self) -> &TcpStream {
        &self.stream
    }

    pub fn since(&self) -> Instant {
        self.since
    }

    pub fn end(&self) -> Option<Instant> {
        self.end
    }

    /// How many blocks of memory it has.
    pub fn blocks(&self) -> usize {
        self.unsent.blocks()
    }

    /// Whether nothing of a request came since the last reply.
    pub fn is_idle(&self) -> bool {
        self.doing == Doing::Lingers || self.doing == Doing::Reads && self.coming.what == READ && !self.is_queued
    }

    /// Whether the core hasn't said yet that it may read: then it is idle in a moment, or has a request.
    pub fn is_new(&self) -> bool {
        self.doing == Doing::Waits && self.next.is_none()
    }

    /// Whether the core knows of it.
    pub fn is_known(&self) -> bool {
        self.next != Some(CLOSE) && self.doing != Doing::Lingers
    }

    pub fn leaves(&self) -> bool {
        self.leaves
    }

    /// Whether all bytes that the core ordered were sent.
    pub fn is_sent(&self) -> bool {
        self.unsent.is_empty()
    }

    /// It is to go. True where it can go at once: the core owes it no order, with which it goes else.
    pub fn leave(&mut self) -> bool {
        self.leaves = true;
        if !self.unsent.is_empty() {
            sockets::drop_unsent(&self.stream);
            self.unsent.clear();
        }
        self.doing != Doing::Waits && (self.doing != Doing::Sends || self.next.is_some())
    }

    /// What the kernel tells of it. One that broke goes with the order that the core owes it.
    pub fn note(&mut self, readable: bool, writable: bool, hung_up: bool, broke: bool) {
        self.readable |= readable;
        self.writable |= writable;
        self.hung_up |= hung_up;
        self.leaves |= broke;
    }

    /// The core gave an order for it. Whether the reply is a long one.
    pub fn note_order(&mut self, core: &Core) -> bool {
        self.last.note(core);
        self.last.is_long()
    }

    /// An order begins. Whether the core is to be told at once that its bytes are sent, where it may be.
    pub fn begin(&mut self, next: u8, may_be: bool, core: &Core) -> bool {
        self.is_told = next == TELL && may_be && !self.leaves && self.unsent.len() <= AHEAD;
        if self.is_told {
            self.last.ask(core);
        }
        self.is_told
    }

    /// Bytes of an order came from the core. One that fails goes with the end of the order, since the core's bytes are for it until then.
    pub fn give(&mut self, bytes: &[u8], times: Times) {
        if self.doing != Doing::Sends {
            self.send(times);
        }
        if self.end.is_none() {
            self.end = Some(Instant::now() + times.piece);
        }
        self.last.add(bytes.len());
        if self.leaves {
            return;
        }
        let mut rest = bytes;
        if self.unsent.is_empty() && self.writable {
            match (&self.stream).write(rest) {
                Ok(count) => rest = self.took(count, rest, times),
                Err(error) if self.is_full(&error) => {}
                Err(_) => {
                    self.leave();
                    return;
                }
            }
        }
        self.unsent.push(rest);
    }

    /// An order is whole: what is to be done after its bytes.
    pub fn order(&mut self, next: u8, times: Times) {
        let is_bare = self.doing != Doing::Sends;
        if is_bare {
            self.send(times);
        }
        self.next = if self.is_told { None } else { Some(next) };
        let reads = next != TELL && next != CLOSE;
        if reads && (next == READ || next != self.coming.what || !is_bare) {
            self.coming = Coming::new(next);
        }
    }

    fn send(&mut self, times: Times) {
        self.doing = Doing::Sends;
        (self.since, self.taken, self.next) = (Instant::now(), 0, None);
        self.end = Some(self.since + times.piece);
    }

    /// Goes on as far as the client lets it.
    pub fn go_on(&mut self, times: Times) -> Outcome {
        loop {
            let went = match self.doing {
                Doing::Waits => return Outcome::Waits,
                Doing::Sends => self.go_on_sending(times),
                Doing::Reads => return self.go_on_reading(),
                Doing::Lingers => return self.linger(),
            };
            match went {
                Ok(None) => {}
                Ok(Some(outcome)) => return outcome,
                Err(_) => return if self.leave() { Outcome::Gone } else { Outcome::Waits },
            }
        }
    }

    /// Sends what it can; where all is sent, what comes then. None where it goes on with that.
    fn go_on_sending(&mut self, times: Times) -> io::Result<Option<Outcome>> {
        if self.leaves && self.next.is_some() {
            return Err(ErrorKind::ConnectionAborted.into());
        }
        self.write(times)?;
        let is_sent = self.unsent.is_empty();
        if is_sent {
            (self.since, self.end) = (Instant::now(), None); // the client is waited for no more
        }
        match self.next {
            Some(TELL) if self.unsent.len() <= AHEAD => Ok(Some(Outcome::Asks)),
            Some(CLOSE) if is_sent => {
                self.stream.shutdown(Shutdown::Write)?;
                (self.doing, self.end) = (Doing::Lingers, Some(self.since + LINGER));
                Ok(None)
            }
            Some(_) if is_sent => {
                (self.doing, self.end) = (Doing::Reads, Some(self.since + self.coming.left(times)));
                Ok(None)
            }
            _ => Ok(Some(Outcome::Waits)),
        }
    }

    /// Writes what the client takes.
    fn write(&mut self, times: Times) -> io::Result<()> {
        while !self.unsent.is_empty() && self.writable {
            match self.unsent.write_to(&self.stream) {
                Ok((count, is_whole)) => self.note_taken(count, is_whole, times),
                Err(error) if self.is_full(&error) => {}
                Err(error) => return Err(error),
            }
        }
        Ok(())
    }

    /// The client took so many of these bytes: what is left of them.
    fn took<'a>(&mut self, count: usize, bytes: &'a [u8], times: Times) -> &'a [u8] {
        self.note_taken(count, count == bytes.len(), times);
        &bytes[count..]
    }

    /// The client took so many bytes, and whether it took all that it was given. For each piece of them it has its time.
    fn note_taken(&mut self, count: usize, is_whole: bool, times: Times) {
        self.writable = is_whole;
        self.taken += count;
        if self.taken >= PIECE {
            (self.taken, self.end) = (0, Some(Instant::now() + times.piece));
        }
    }

    /// Whether the error says that nothing can be taken now.
    fn is_full(&mut self, error: &io::Error) -> bool {
        self.writable &= error.kind() != ErrorKind::WouldBlock;
        matches!(error.kind(), ErrorKind::WouldBlock | ErrorKind::Interrupted)
    }

    /// Where something came, it asks for its turn; from then on its client isn't waited for.
    fn go_on_reading(&mut self) -> Outcome {
        if self.leaves && self.coming.what == READ {
            return Outcome::Gone;
        }
        if !self.readable && !self.hung_up {
            return Outcome::Waits;
        }
        Outcome::Asks
    }

    /// It waits for its turn. False where it did so before.
    pub fn queue(&mut self) -> bool {
        let is_first = !std::mem::replace(&mut self.is_queued, true);
        if is_first && self.doing == Doing::Reads {
            self.coming.wait(self.since.elapsed());
            self.end = None;
        }
        is_first
    }

    /// Whether it waits for its turn.
    pub fn is_queued(&self) -> bool {
        self.is_queued
    }

    /// It has its turn.
    pub fn take_turn(&mut self, core: &mut Core, times: Times) -> Turn {
        self.is_queued = false;
        match self.doing {
            Doing::Sends if self.next == Some(TELL) && self.unsent.len() <= AHEAD => {
                match self.unsent.is_empty() {
                    true => self.doing = Doing::Waits,
                    false => self.next = None,
                }
                self.last.ask(core);
                Turn::Sent
            }
            Doing::Reads if self.coming.what == READ && self.last.waits_for_others(self.since, core) => {
                self.is_queued = true;
                Turn::Later
            }
            Doing::Reads => self.read(core, times).unwrap_or(Turn::Gone),
            _ => Turn::Nothing,
        }
    }

    /// Reads once into the room of a report.
    fn read(&mut self, core: &mut Core, times: Times) -> io::Result<Turn> {
        let piece = self.work.piece();
        match (&self.stream).read(&mut core.room()[..piece]) {
            Ok(count) => {
                self.readable = count == piece;
                if self.coming.is_new() {
                    self.last.begin();
                }
                self.last.ask(core);
                self.coming.add(count);
                (self.doing, self.since) = (Doing::Waits, Instant::now());
                Ok(Turn::Got(count))
            }
            Err(error) if error.kind() == ErrorKind::WouldBlock => {
                (self.readable, self.since) = (false, Instant::now());
                self.end = Some(self.since + self.coming.left(times));
                Ok(Turn::Nothing)
            }
            Err(error) if error.kind() == ErrorKind::Interrupted => self.read(core, times),
            Err(error) => Err(error),
        }
    }

    /// Reads what comes after the last bytes, which nobody wants, until the client has read them: a piece, and then others have a turn.
    fn linger(&mut self) -> Outcome {
        if !self.readable && !self.hung_up {
            return Outcome::Waits;
        }
        match (&self.stream).read(&mut [0; PIECE]) {
            Ok(count) if count > 0 => Outcome::Lingers,
            Err(error) if error.kind() == ErrorKind::WouldBlock => {
                self.readable = false;
                Outcome::Waits
            }
            Err(error) if error.kind() == ErrorKind::Interrupted => Outcome::Lingers,
            _ => Outcome::Gone,
        }
    }
}
