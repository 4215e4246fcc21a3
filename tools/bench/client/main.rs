//! The client of tools/live/bench: keeps connections alive, one thread for each, and counts what is answered.
//!
//!     client PORT put|get CONNECTIONS WARM MEASURED      files of 1,024 bytes; WARM and MEASURED are milliseconds
//!     client PORT all|four CONNECTIONS WARM MEASURED     PROPFIND of Depth 1 of /list/: all properties, or four by name
//!     client PORT middle|part CONNECTIONS WARM MEASURED  a file of 65,536 bytes, or as many of /large, which has 100,000,000, from 100 places
//!     client PORT beside CONNECTIONS WARM MEASURED       small files, while one more connection lists all properties of /listed/
//!     client PORT up|down CONNECTIONS BYTES TIMES        /large, of so many bytes, so many times on each connection
//!     client PORT fill FOLDER COUNT                      COUNT files of 100 bytes into a folder, on eight connections
//!     client PORT listing FOLDER                         PROPFIND of Depth 1 of a folder, all properties, once
//!     client PORT hollow                                 a server that answers each request alike: what client and kernel can do
//!
//! Prints `ANSWERED SECONDS IN_ALL MIDDLE LATE`: requests answered while it measured, for how long, and with those of the warming up; and in how many
//! microseconds the half of them was answered, and 99 of 100. Of up and down the first and the third are bytes; of listing `BYTES` of the reply's
//! body alone, of fill nothing. A connection that the server closes between two requests is opened anew. A reply that isn't as it should be
//! ends it with status 1.
#![forbid(unsafe_code)]

use std::io::{self, Read, Write};
use std::net::{TcpListener, TcpStream};
use std::process::exit;
use std::sync::atomic::{AtomicBool, Ordering};
use std::sync::{Arc, Barrier};
use std::thread;
use std::time::{Duration, Instant};

/// The bytes of a file that is put or got, and how many files each connection has.
const SIZE: usize = 1024;
const FILES: usize = 100;

/// The bytes of a file of middle size, and of a part of the large one.
const MIDDLE: usize = 65_536;

const FOUR: &str = "<?xml version=\"1.0\" encoding=\"utf-8\"?><D:propfind xmlns:D=\"DAV:\"><D:prop><D:getetag/><D:getcontentlength/>\
    <D:getlastmodified/><D:resourcetype/></D:prop></D:propfind>";

/// The bytes of a file that fills a folder, and on how many connections these are put.
const MEMBER: usize = 100;
const FILLING: usize = 8;

/// A connection, and what was read of it.
struct Link {
    stream: TcpStream,
    /// Whether the server closes it after its last reply.
    closes: bool,
    buffer: Vec<u8>,
    /// The bytes of the buffer that aren't used yet.
    from: usize,
    to: usize,
}

/// What a reply says: its status, and how long its body was.
#[derive(PartialEq)]
struct Said {
    status: u16,
    length: usize,
}

fn wrong(what: &str) -> io::Error {
    io::Error::new(io::ErrorKind::InvalidData, what.to_owned())
}

fn is_closed(error: &io::Error) -> bool {
    matches!(error.kind(), io::ErrorKind::UnexpectedEof | io::ErrorKind::ConnectionReset | io::ErrorKind::BrokenPipe)
}

fn find(bytes: &[u8], what: &[u8]) -> Option<usize> {
    bytes.windows(what.len()).position(|window| window == what)
}

/// The value of a field of a head; names are compared without case.
fn field<'h>(head: &'h str, name: &str) -> Option<&'h str> {
    head.split("\r\n")
        .filter_map(|line| line.split_once(':'))
        .find(|(found, _)| found.eq_ignore_ascii_case(name))
        .map(|(_, value)| value.trim())
}

impl Link {
    fn open(port: u16) -> io::Result<Link> {
        let stream = TcpStream::connect(("127.0.0.1", port))?;
        stream.set_nodelay(true)?;
        Ok(Link::of(stream))
    }

    fn of(stream: TcpStream) -> Link {
        Link { stream, closes: false, buffer: vec![0; 1 << 18], from: 0, to: 0 }
    }

    /// Reads once; what is used already makes room.
    fn more(&mut self) -> io::Result<()> {
        if self.from == self.to {
            (self.from, self.to) = (0, 0);
        } else if self.to == self.buffer.len() {
            self.buffer.copy_within(self.from.., 0);
            (self.from, self.to) = (0, self.to - self.from);
        }
        match self.stream.read(&mut self.buffer[self.to..])? {
            0 => Err(io::ErrorKind::UnexpectedEof.into()),
            count => {
                self.to += count;
                Ok(())
            }
        }
    }

    /// The text up to an end, which is used too.
    fn text(&mut self, end: &[u8]) -> io::Result<String> {
        loop {
            if let Some(length) = find(&self.buffer[self.from..self.to], end) {
                let text = String::from_utf8_lossy(&self.buffer[self.from..self.from + length]).into_owned();
                self.from += length + end.len();
                return Ok(text);
            }
            self.more()?;
        }
    }

    /// Passes over so many bytes.
    fn pass(&mut self, mut count: usize) -> io::Result<()> {
        loop {
            let here = count.min(self.to - self.from);
            self.from += here;
            count -= here;
            if count == 0 {
                return Ok(());
            }
            self.more()?;
        }
    }

    /// Passes over a chunked body: how long it was.
    fn pass_chunks(&mut self) -> io::Result<usize> {
        let mut length = 0;
        loop {
            let size = usize::from_str_radix(self.text(b"\r\n")?.trim(), 16).map_err(|_| wrong("a chunk"))?;
            self.pass(size + 2)?;
            length += size;
            if size == 0 {
                return Ok(length);
            }
        }
    }

    fn reply(&mut self) -> io::Result<Said> {
        let head = self.text(b"\r\n\r\n")?;
        let status = head.get(9..12).and_then(|digits| digits.parse().ok()).ok_or_else(|| wrong(&head))?;
        let length = match field(&head, "content-length") {
            Some(told) => {
                let length = told.parse().map_err(|_| wrong(&head))?;
                self.pass(length)?;
                length
            }
            None if field(&head, "transfer-encoding").is_some() => self.pass_chunks()?,
            None if status == 204 => 0,
            None => return Err(wrong(&head)),
        };
        self.closes = field(&head, "connection").is_some_and(|told| told.eq_ignore_ascii_case("close"));
        Ok(Said { status, length })
    }

    fn send(&mut self, request: &[u8]) -> io::Result<Said> {
        self.stream.write_all(request)?;
        self.reply()
    }

    /// Sends a request and reads its reply; once more on a new connection, where the server closed this one after an earlier reply.
    fn ask(&mut self, port: u16, request: &[u8]) -> io::Result<Said> {
        if !self.closes {
            match self.send(request) {
                Err(error) if is_closed(&error) && self.from == self.to => {}
                said => return said,
            }
        }
        *self = Link::open(port)?;
        self.send(request)
    }
}

fn request(method: &str, path: &str, more: &str, body: &[u8]) -> Vec<u8> {
    let length = if body.is_empty() { String::new() } else { format!("Content-Length: {}\r\n", body.len()) };
    let mut bytes = format!("{method} {path} HTTP/1.1\r\nHost: localhost\r\n{more}{length}\r\n").into_bytes();
    bytes.extend_from_slice(body);
    bytes
}

/// The field that asks for a part of middle size, from a place on.
fn part(from: usize) -> String {
    format!("Range: bytes={from}-{}\r\n", from + MIDDLE - 1)
}

/// The requests that a connection sends, over and over.
fn requests(what: &str, connection: usize) -> Vec<Vec<u8>> {
    let path = |file: usize| format!("/files/{connection}-{file}");
    match what {
        "put" => (0..FILES).map(|file| request("PUT", &path(file), "", &[b'a' + (file % 26) as u8; SIZE])).collect(),
        "get" | "beside" => (0..FILES).map(|file| request("GET", &path(file), "", b"")).collect(),
        "listed" => vec![request("PROPFIND", "/listed/", "Depth: 1\r\n", b"")],
        "middle" => vec![request("GET", "/files/middle", "", b"")],
        "part" => (0..FILES).map(|place| request("GET", "/large", &part(place * 1_000_000), b"")).collect(),
        "all" => vec![request("PROPFIND", "/list/", "Depth: 1\r\n", b"")],
        "four" => vec![request("PROPFIND", "/list/", "Depth: 1\r\nContent-Type: application/xml\r\n", FOUR.as_bytes())],
        _ => usage(),
    }
}

fn is_right(what: &str, said: &Said) -> bool {
    match what {
        "put" => (200..205).contains(&said.status),
        "get" | "beside" => *said == Said { status: 200, length: SIZE },
        "middle" => *said == Said { status: 200, length: MIDDLE },
        "part" => *said == Said { status: 206, length: MIDDLE },
        _ => said.status == 207 && said.length > 100_000,
    }
}

/// When connections count what is answered, and when they stop.
struct Phases {
    warm: AtomicBool,
    stop: AtomicBool,
    all: Barrier,
}

/// What a connection counted: in how many microseconds each request was answered after the warming up, and how many in all.
struct Counted {
    times: Vec<u32>,
    total: u64,
}

/// Sends requests on one connection until it is stopped.
fn drive(port: u16, what: &str, connection: usize, phases: &Phases) -> io::Result<Counted> {
    let mut link = Link::open(port)?;
    let list = requests(what, connection);
    let mut counted = Counted { times: Vec::new(), total: 0 };
    phases.all.wait();
    for bytes in list.iter().cycle() {
        let counts = phases.warm.load(Ordering::Relaxed);
        if phases.stop.load(Ordering::Relaxed) {
            break;
        }
        let begin = Instant::now();
        let said = link.ask(port, bytes)?;
        if !is_right(what, &said) {
            return Err(wrong(&format!("{what} was answered {} with {} bytes", said.status, said.length)));
        }
        counted.total += 1;
        if counts && !phases.stop.load(Ordering::Relaxed) {
            counted.times.push(begin.elapsed().as_micros() as u32);
        }
    }
    Ok(counted)
}

fn measure(port: u16, what: &'static str, connections: usize, warming: Duration, measuring: Duration) -> io::Result<()> {
    let listers = usize::from(what == "beside");
    let phases = Phases { warm: AtomicBool::new(false), stop: AtomicBool::new(false), all: Barrier::new(connections + listers + 1) };
    let phases = Arc::new(phases);
    let begun = |what: &'static str, connection| {
        let phases = phases.clone();
        thread::spawn(move || drive(port, what, connection, &phases).unwrap_or_else(|error| fail(&error.to_string())))
    };
    let threads: Vec<_> = (0..connections).map(|connection| begun(what, connection)).collect();
    let others: Vec<_> = (0..listers).map(|connection| begun("listed", connection)).collect();
    phases.all.wait();
    thread::sleep(warming);
    phases.warm.store(true, Ordering::Relaxed);
    let begin = Instant::now();
    thread::sleep(measuring);
    phases.stop.store(true, Ordering::Relaxed);
    let seconds = begin.elapsed().as_secs_f64();
    let counted: Vec<Counted> = threads.into_iter().map(|thread| thread.join().unwrap()).collect();
    others.into_iter().for_each(|thread| drop(thread.join()));
    let times: Vec<u32> = counted.iter().flat_map(|one| one.times.iter().copied()).collect();
    let total: u64 = counted.iter().map(|one| one.total).sum();
    tell(times.len(), seconds, total, times);
    Ok(())
}

/// Prints what was counted, and in how many microseconds the half of the requests was answered, and 99 of 100.
fn tell(count: usize, seconds: f64, total: u64, mut times: Vec<u32>) {
    times.sort_unstable();
    let time = |percent: usize| times.get((times.len() * percent / 100).min(times.len().saturating_sub(1))).copied().unwrap_or(0);
    println!("{count} {seconds:.6} {total} {} {}", time(50), time(99));
}

/// Sends a large file up on one connection, or gets it, so many times: the microseconds of each.
fn move_on_one(port: u16, bytes: &[u8], wanted: Option<&Said>, times: usize) -> io::Result<Vec<u32>> {
    let mut link = Link::open(port)?;
    let mut taken = Vec::new();
    for _ in 0..times {
        let begin = Instant::now();
        let said = link.ask(port, bytes)?;
        taken.push(begin.elapsed().as_micros() as u32);
        if !wanted.map_or((200..205).contains(&said.status), |wanted| said == *wanted) {
            return Err(wrong(&format!("the large file was answered {} with {} bytes", said.status, said.length)));
        }
    }
    Ok(taken)
}

/// Sends a large file up, or gets it, on each of some connections at once.
fn move_large(port: u16, up: bool, connections: usize, size: usize, times: usize) -> io::Result<()> {
    let body = if up { vec![b'x'; size] } else { Vec::new() };
    let bytes = Arc::new(request(if up { "PUT" } else { "GET" }, "/large", "", &body));
    drop(body);
    let begin = Instant::now();
    let begun = |_| {
        let bytes = bytes.clone();
        let wanted = (!up).then_some(Said { status: 200, length: size });
        thread::spawn(move || move_on_one(port, &bytes, wanted.as_ref(), times).unwrap_or_else(|error| fail(&error.to_string())))
    };
    let threads: Vec<_> = (0..connections).map(begun).collect();
    let taken: Vec<u32> = threads.into_iter().flat_map(|thread| thread.join().unwrap()).collect();
    let moved = size * times * connections;
    tell(moved, begin.elapsed().as_secs_f64(), moved as u64, taken);
    Ok(())
}

/// Puts files into a folder, each connection those whose numbers are its own and each eighth from there on.
fn fill(port: u16, folder: &'static str, count: usize) -> io::Result<()> {
    let one = move |connection: usize| -> io::Result<()> {
        let mut link = Link::open(port)?;
        for file in (connection..count).step_by(FILLING) {
            let said = link.ask(port, &request("PUT", &format!("{folder}member-{file:06}.txt"), "", &[b'x'; MEMBER]))?;
            if !(200..205).contains(&said.status) {
                return Err(wrong(&format!("a file of {folder} was answered {}", said.status)));
            }
        }
        Ok(())
    };
    let begun = |connection| thread::spawn(move || one(connection).unwrap_or_else(|error| fail(&error.to_string())));
    let threads: Vec<_> = (0..FILLING).map(begun).collect();
    threads.into_iter().for_each(|thread| thread.join().unwrap());
    Ok(())
}

/// Lists all properties of a folder, and prints how long that was.
fn list(port: u16, folder: &str) -> io::Result<()> {
    let said = Link::open(port)?.send(&request("PROPFIND", folder, "Depth: 1\r\n", b""))?;
    if said.status != 207 {
        return Err(wrong(&format!("a listing of {folder} was answered {}", said.status)));
    }
    println!("{}", said.length);
    Ok(())
}

/// Answers each request alike, with a body of a file's size.
fn be_hollow(port: u16) -> io::Result<()> {
    let mut reply = format!("HTTP/1.1 200 OK\r\nContent-Length: {SIZE}\r\n\r\n").into_bytes();
    reply.extend_from_slice(&[b'x'; SIZE]);
    for stream in TcpListener::bind(("127.0.0.1", port))?.incoming() {
        let (stream, reply) = (stream?, reply.clone());
        stream.set_nodelay(true)?;
        thread::spawn(move || {
            let mut link = Link::of(stream);
            while let Ok(head) = link.text(b"\r\n\r\n") {
                let length = field(&head, "content-length").and_then(|told| told.parse().ok()).unwrap_or(0);
                if link.pass(length).is_err() || link.stream.write_all(&reply).is_err() {
                    return;
                }
            }
        });
    }
    Ok(())
}

fn number<T: std::str::FromStr>(words: &[String], place: usize) -> T {
    words.get(place).and_then(|word| word.parse().ok()).unwrap_or_else(|| usage())
}

fn word(words: &[String], place: usize) -> &'static str {
    words.get(place).unwrap_or_else(|| usage()).clone().leak()
}

fn main() {
    let words: Vec<String> = std::env::args().collect();
    let port = number(&words, 1);
    let what = word(&words, 2);
    let milliseconds = |place| Duration::from_millis(number(&words, place));
    let done = match what {
        "hollow" => be_hollow(port),
        "up" | "down" => move_large(port, what == "up", number(&words, 3), number(&words, 4), number(&words, 5)),
        "fill" => fill(port, word(&words, 3), number(&words, 4)),
        "listing" => list(port, word(&words, 3)),
        _ => measure(port, what, number(&words, 3), milliseconds(4), milliseconds(5)),
    };
    done.unwrap_or_else(|error| fail(&error.to_string()));
}

fn usage() -> ! {
    fail("usage: client PORT put|get|all|four|middle|part|beside CONNECTIONS WARM MEASURED, client PORT up|down CONNECTIONS BYTES TIMES, \
          client PORT fill FOLDER COUNT, client PORT listing FOLDER, client PORT hollow")
}

fn fail(what: &str) -> ! {
    eprintln!("client: {what}");
    exit(1)
}
