//! The front: it moves bytes between sockets and the core, and knows nothing of HTTP.
//!
//! Each connection has a slot. The core answers each report but GONE, TICK, HELLO, USERS and ROOM with one order: bytes to write, and what
//! to do then. The front carries it out and reports once. So at most one message of a connection is under way in each direction, and a
//! client that doesn't read stops only itself. Who asks the core waits for his turn, by his address and by the work that the core had for it. One thread
//! does all of it, with what the kernel tells of the sockets.
//!
//! What waits is bounded: reports by their count of bytes, replies that clients haven't taken by a number that is told (`--unsent`).
//!
//! SIGTERM and Ctrl-C end the core's input: it answers what it has, and ends; then the front does. SIGHUP reports the users and the rules
//! of access again, and so does a change of their files.
#![deny(unsafe_code)]

mod arrivals;
mod clock;
mod coming;
mod connection;
mod core;
mod entrance;
mod files;
mod front;
mod lists;
mod long;
mod poll;
mod proxy;
mod reports;
mod room;
mod signals;
mod slots;
mod sockets;
mod spent;
mod turns;
mod unsent;
mod work;

use clock::{Clock, date};
use coming::Times;
use entrance::Entrance;
use front::Front;
use proxy::Proxies;
use signals::{HANG_UP, INTERRUPT, Signals, TERMINATE};
use std::fs::File;
use std::io::{self, Read, Write};
use std::os::unix::net::UnixStream;
use std::os::unix::process::CommandExt;
use std::process::{Child, Command, exit};
use std::thread;
use std::time::Duration;

/// The status of a core that ran out of memory or was ended by a signal, of one whose disk failed, and of one whose state another process has.
const NO_MEMORY: i32 = 3;
const FAILED: i32 = 5;
const IN_USE: i32 = 6;

/// What the front is told when it begins.
struct Settings {
    times: Times,
    /// The most connections of one address.
    per_address: usize,
    /// The most bytes of replies that clients haven't taken.
    unsent: usize,
    /// Whose connections begin with a header that tells whose they are.
    proxies: Proxies,
    /// The folder of the users and the rules, which are reported where they change.
    lists: Option<String>,
    /// The folder on whose disk the state is, of which the room is reported.
    folder: Option<String>,
    /// What is said once the core answers; `{port}` stands for the port.
    ready: Option<String>,
    /// What is said where the state is in use, which is waited for then; the address is bound once the core answers.
    wait: Option<String>,
    address: String,
    program: String,
    arguments: Vec<String>,
}

fn main() {
    let signals = Signals::block(&[HANG_UP, INTERRUPT, TERMINATE]);
    let settings = read_settings();
    poll::raise_open_files();
    let entrance = Entrance::new(&settings.address, settings.wait.is_none(), settings.proxies.clone());
    let (core, child) = start(&settings);
    let (heard, mut hears) = UnixStream::pair().unwrap_or_else(|error| fail("the front", error));
    thread::spawn(move || while hears.write_all(&[signals.next() as u8]).is_ok() {});
    let mut front = Front::new(core, child, entrance, heard, &settings).unwrap_or_else(|error| fail("the front", error));
    front.greet(&random());
    let mut status = front.serve();
    if let (IN_USE, Some(text)) = (status, &settings.wait) {
        eprintln!("{text}");
        status = wait(&mut front, &settings);
    }
    if status == NO_MEMORY && !front.is_ending() {
        begin_again();
    }
    front.send_last();
    exit(status);
}

/// Starts the core.
fn start(settings: &Settings) -> (core::Core, Child) {
    let mut command = Command::new(&settings.program);
    command.args(&settings.arguments);
    command.process_group(0); // Ctrl-C at a terminal is for the front alone
    core::Core::start(command, Clock::new()).unwrap_or_else(|error| fail(&settings.program, error))
}

/// Starts the core again, a second after it ended, until its state isn't in use; the status of the one that served, or of the end.
fn wait(front: &mut Front, settings: &Settings) -> i32 {
    while front.pause() {
        let (core, child) = start(settings);
        front.go_on_with(core, child).unwrap_or_else(|error| fail("the front", error));
        front.greet(&random());
        let status = front.serve();
        if status != IN_USE {
            return status;
        }
    }
    0
}

fn random() -> [u8; 16] {
    let mut bytes = [0; 16];
    File::open("/dev/urandom").and_then(|mut file| file.read_exact(&mut bytes)).unwrap_or_else(|error| fail("/dev/urandom", error));
    bytes
}

fn read_settings() -> Settings {
    let mut words = std::env::args().skip(1);
    let mut settings = Settings {
        times: Times { idle: Duration::from_secs(75), piece: Duration::from_secs(60) },
        per_address: 128,
        unsent: 128 << 20,
        proxies: Proxies::default(),
        lists: None,
        folder: None,
        ready: None,
        wait: None,
        address: String::new(),
        program: String::new(),
        arguments: Vec::new(),
    };
    let mut word = words.next().unwrap_or_else(|| usage());
    while word.starts_with("--") {
        let value = words.next().unwrap_or_else(|| usage());
        match word.as_str() {
            "--idle" => settings.times.idle = Duration::from_secs(number(&value)),
            "--piece-time" => settings.times.piece = Duration::from_secs(number(&value)),
            "--per-address" => settings.per_address = number(&value) as usize,
            "--unsent" => settings.unsent = number(&value) as usize,
            "--proxy" if settings.proxies.add(&value) => {}
            "--proxy" => fail("--proxy", io::Error::other(format!("'{value}' is neither an address nor loopback"))),
            "--lists" => settings.lists = Some(value),
            "--room" => settings.folder = Some(value),
            "--ready" => settings.ready = Some(value),
            "--wait" => settings.wait = Some(value),
            _ => usage(),
        }
        word = words.next().unwrap_or_else(|| usage());
    }
    settings.address = word;
    settings.program = words.next().unwrap_or_else(|| usage());
    settings.arguments = words.collect();
    settings
}

/// The number of a text, which isn't 0.
fn number(text: &str) -> u64 {
    text.parse().ok().filter(|number| *number > 0).unwrap_or_else(|| usage())
}

/// Begins again in this process's place after the core ran out of memory, at most three times a minute.
fn begin_again() -> ! {
    let now = date();
    let told = std::env::var("FRONT_BEGUN").unwrap_or_default();
    let mut times: Vec<u64> = told.split(',').filter_map(|text| text.parse().ok()).collect();
    times.retain(|time| *time + 60 > now);
    if times.len() >= 3 {
        exit(NO_MEMORY);
    }
    times.push(now);
    eprintln!("serve: the core ran out of memory; it begins again");
    let texts: Vec<String> = times.iter().map(|time| time.to_string()).collect();
    let mut words = std::env::args_os();
    let program = std::env::current_exe().unwrap_or_else(|error| fail("the front", error));
    let error = Command::new(program)
        .args(words.by_ref().skip(1))
        .env("FRONT_BEGUN", texts.join(","))
        .exec();
    fail("the front", error)
}

fn usage() -> ! {
    eprintln!("usage: front [--idle SECONDS] [--piece-time SECONDS] [--per-address COUNT] [--unsent BYTES] [--proxy ADDRESS|loopback].. [--lists FOLDER] [--room FOLDER] [--ready TEXT] [--wait TEXT] ADDRESS:PORT PROGRAM [ARGUMENT..]");
    exit(64)
}

fn fail(what: &str, error: io::Error) -> ! {
    eprintln!("serve: {what}: {error}");
    exit(1)
}
