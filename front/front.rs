//! The front's one thread: what it is told by the kernel, by the core and by signals, and what it does then.
mod asking;
mod upkeep;

use crate::coming::Times;
use crate::connection::{Connection, Outcome};
use crate::core::{Core, Part};
use crate::entrance::{Comer, Entrance};
use crate::files::Files;
use crate::lists::Lists;
use crate::poll::{BROKE, Event, HUNG_UP, Poll, READABLE, WRITABLE};
use crate::room::Room;
use crate::slots::{Place, Slots};
use crate::turns::Turns;
use crate::unsent::Blocks;
use crate::work::Orders;
use crate::{FAILED, NO_MEMORY, Settings};
use std::collections::VecDeque;
use std::io;
use std::os::unix::net::UnixStream;
use std::os::unix::process::ExitStatusExt;
use std::process::Child;
use std::time::{Duration, Instant};

/// What is reported of a connection.
const OPENED: u8 = 1;
const GOT: u8 = 2;
const SENT: u8 = 3;
const GONE: u8 = 4;

/// What is reported besides connections, but for what `upkeep` does.
const HELLO: u8 = 0;

/// The keys of what isn't in a slot.
const LISTENER: u64 = 1 << 32;
const CORE: u64 = LISTENER + 1;
const SIGNALS: u64 = LISTENER + 2;

/// The key of the first place of a proxy's connection whose header hasn't come.
const ARRIVALS: u64 = 1 << 33;

/// So many are let in before others have a turn.
const LET_IN: usize = 64;

/// So many drop a piece of what comes before others have a turn.
const LINGERING: usize = 8;

const SECOND: Duration = Duration::from_secs(1);

/// How often it is looked whose time has passed.
const MOMENT: Duration = Duration::from_millis(50);

/// So often it is looked whether those may ask that have to wait for others.
const TURN: Duration = Duration::from_millis(1);

/// So long the last replies have to be sent, once the core has ended.
const LAST: Duration = Duration::from_secs(2);

pub struct Front {
    core: Core,
    child: Child,
    poll: Poll,
    slots: Slots,
    entrance: Entrance,
    /// Whether more may come in at once.
    is_pressed: bool,
    signals: UnixStream,
    lists: Option<Lists>,
    folder: Option<String>,
    room: Room,
    /// The files of the state, once the core answers, where their folder is told.
    files: Option<Files>,
    /// Whether a file of the state is another one by now, or can't be asked: the core was ended.
    is_lost: bool,
    ready: Option<String>,
    times: Times,
    /// The memory for what clients haven't taken.
    blocks: Blocks,
    /// Who waits for a turn, and what the core did for those who had theirs.
    turns: Turns,
    orders: Orders,
    /// The slots of connections that would ask, once the others had their time.
    later: Vec<usize>,
    /// The slots of connections that drop what comes, once others had a turn.
    lingering: VecDeque<usize>,
    /// Whether the core has answered: then it has read its state.
    is_ready: bool,
    is_ending: bool,
    /// When the next second is told, and how many were.
    second: Instant,
    seconds: u64,
    /// When it is looked next whose time has passed.
    moment: Instant,
}

impl Front {
    pub fn new(core: Core, child: Child, entrance: Entrance, signals: UnixStream, settings: &Settings) -> io::Result<Front> {
        let poll = Poll::new()?;
        signals.set_nonblocking(true)?;
        poll.add(core.socket(), CORE)?;
        poll.add(&signals, SIGNALS)?;
        let process = child.id();
        Ok(Front {
            core,
            child,
            poll,
            slots: Slots::new(settings.per_address),
            entrance,
            is_pressed: false,
            signals,
            lists: settings.lists.clone().map(Lists::new),
            folder: settings.folder.clone(),
            room: Room::new(settings.folder.clone()),
            files: None,
            is_lost: false,
            ready: settings.ready.clone(),
            times: settings.times,
            blocks: Blocks::new(settings.unsent),
            turns: Turns::default(),
            orders: Orders::new(process),
            later: Vec::new(),
            lingering: VecDeque::new(),
            is_ready: false,
            is_ending: false,
            second: Instant::now(),
            seconds: 0,
            moment: Instant::now(),
        })
    }

    /// Whether the core's input was ended.
    pub fn is_ending(&self) -> bool {
        self.is_ending
    }

    /// Goes on with another core.
    pub fn go_on_with(&mut self, core: Core, child: Child) -> io::Result<()> {
        self.poll.add(core.socket(), CORE)?;
        (self.core, self.orders, self.child) = (core, Orders::new(child.id()), child);
        Ok(())
    }

    /// Waits for a second. False where it is to end.
    pub fn pause(&mut self) -> bool {
        let end = Instant::now() + SECOND;
        while !self.is_ending && Instant::now() < end {
            let events = self.poll.wait(end.saturating_duration_since(Instant::now())).to_vec();
            if events.iter().any(|event| event.key == SIGNALS) {
                self.do_as_signalled();
            }
        }
        !self.is_ending
    }

    /// Tells the core that it is there, with random bytes, and asks whether the core answers, as a connection that comes and goes.
    pub fn greet(&mut self, random: &[u8]) {
        self.core.report(0, HELLO, random);
        self.core.report(0, OPENED, &[]);
    }

    /// Serves until the core ends; its status.
    pub fn serve(&mut self) -> i32 {
        let mut events = Vec::new();
        loop {
            let _ = self.core.flush(); // where the core has ended, the end of its orders tells
            if self.is_ending {
                self.core.end_input();
            }
            events.clear();
            events.extend_from_slice(self.poll.wait(self.rest()));
            self.go_on_with_later();
            for event in &events {
                self.hear(*event);
            }
            if !self.take_orders() {
                let status = status_of(&mut self.child);
                return if self.is_lost { FAILED } else { status };
            }
            if self.is_ready {
                self.go_on_with_lingering();
                self.give_turns();
                self.let_in();
                self.pass_time();
            }
        }
    }

    /// Sends what is left of the last replies, for a while.
    pub fn send_last(&mut self) {
        let end = Instant::now() + LAST;
        while self.slots.all().any(|(_, connection)| !connection.is_sent()) && Instant::now() < end {
            let events = self.poll.wait(MOMENT).to_vec();
            for event in events {
                self.hear(event);
            }
        }
    }

    /// How long it may wait for the kernel.
    fn rest(&self) -> Duration {
        if !self.is_ready {
            return SECOND;
        }
        if self.is_pressed || !self.lingering.is_empty() || self.may_give_turns() {
            return Duration::ZERO;
        }
        let rest = self.second.min(self.moment).saturating_duration_since(Instant::now());
        if self.later.is_empty() { rest } else { rest.min(TURN) }
    }

    fn hear(&mut self, event: Event) {
        let is = |what: u32| event.what & what != 0;
        let key = event.key;
        match key {
            LISTENER => self.entrance.note(),
            CORE => self.core.note(is(READABLE), is(HUNG_UP)),
            SIGNALS => self.do_as_signalled(),
            ARRIVALS.. => self.entrance.note_arrival((key - ARRIVALS) as usize, is(HUNG_UP)),
            _ => {
                if let Some(connection) = self.slots.get(key as usize) {
                    connection.note(is(READABLE), is(WRITABLE), is(HUNG_UP), is(BROKE));
                    self.go_on(key as usize);
                }
            }
        }
    }

    /// Lets a connection go on as far as its client lets it.
    fn go_on(&mut self, slot: usize) {
        let Some(connection) = self.slots.get(slot) else {
            return;
        };
        match connection.go_on(self.times) {
            Outcome::Waits => {}
            Outcome::Asks if connection.queue() => self.turns.add(connection.origin, slot),
            Outcome::Asks => {}
            Outcome::Lingers if self.lingering.contains(&slot) => {}
            Outcome::Lingers => self.lingering.push_back(slot),
            Outcome::Gone => self.end(slot),
        }
    }

    /// A connection is gone; the core is told where it knows of it.
    fn end(&mut self, slot: usize) {
        if self.slots.take(slot).is_some_and(|connection| connection.is_known()) {
            self.core.report(slot, GONE, &[]);
        }
    }

    fn go_on_with_lingering(&mut self) {
        for _ in 0..LINGERING.min(self.lingering.len()) {
            if let Some(slot) = self.lingering.pop_front() {
                self.go_on(slot);
            }
        }
    }

    /// Hands the core's orders to the connections. False where the core has ended.
    fn take_orders(&mut self) -> bool {
        while self.core.is_readable() {
            if !self.core.read().unwrap_or(false) {
                return false;
            }
            while let Some(part) = self.core.part() {
                match part {
                    Part::Begin(slot, next, length) => self.begin_order(slot, next, length),
                    Part::Bytes(slot, bytes) => {
                        if let Some(connection) = self.slots.get(slot) {
                            connection.give(bytes, self.times);
                        }
                    }
                    Part::End(slot, next) => self.order(slot, next),
                }
            }
            self.measure_orders();
        }
        true
    }

    fn order(&mut self, slot: usize, next: u8) {
        if !self.is_ready {
            self.core.report(slot, GONE, &[]);
            self.begin();
        } else if let Some(connection) = self.slots.get(slot) {
            if connection.note_order(&self.core) {
                self.core.note_long();
            }
            connection.order(next, self.times);
            self.go_on(slot);
        }
    }

    /// The core answers: clients may come.
    fn begin(&mut self) {
        self.is_ready = true;
        (self.second, self.moment) = (Instant::now(), Instant::now()); // so that its room is told before anything is asked
        self.files = self.folder.clone().map(Files::new);
        let port = self.entrance.open(&self.poll, LISTENER);
        if let (Some(text), None) = (&self.ready, std::env::var_os("FRONT_BEGUN")) {
            eprintln!("{}", text.replace("{port}", &port.to_string()));
        }
    }

    /// Lets in who comes, as long as there are slots; some of them, and then others have a turn.
    fn let_in(&mut self) {
        self.is_pressed = false;
        for _ in 0..LET_IN {
            let Some(comer) = self.entrance.next(&self.poll, ARRIVALS) else {
                return;
            };
            if let Some(comer) = self.place(comer) {
                return self.entrance.keep(comer);
            }
        }
        self.is_pressed = true;
    }

    /// Gives a connection a slot; others may have to go for it. It is given back where it has to wait; one whose origin has too many is closed
    /// at once.
    fn place(&mut self, comer: Comer) -> Option<Comer> {
        loop {
            match self.slots.place_for(comer.origin) {
                Place::Free => {
                    self.open(comer);
                    return None;
                }
                Place::InPlaceOf(slot) => self.close(slot),
                Place::Later => return Some(comer),
                Place::Nowhere => return None,
            }
        }
    }

    /// A connection has to go: at once, or with the order that the core owes it.
    fn close(&mut self, slot: usize) {
        if self.slots.get(slot).is_some_and(|connection| connection.leave()) {
            self.end(slot);
        }
    }

    fn open(&mut self, comer: Comer) {
        let Ok(connection) = Connection::new(comer.stream, comer.origin, &self.blocks) else {
            return;
        };
        if let Some(slot) = self.slots.put(connection) {
            let tells = if comer.is_passed_on { Poll::change } else { Poll::add };
            let is_told = self.slots.get(slot).is_some_and(|connection| tells(&self.poll, connection.stream(), slot as u64).is_ok());
            match is_told {
                true => self.core.report(slot, OPENED, comer.address.to_string().as_bytes()),
                false => drop(self.slots.take(slot)),
            }
        }
    }
}

/// The status of a core that ended. One that a signal ended counts as one that ran out of memory: its stack couldn't grow, or the machine had no more.
fn status_of(child: &mut Child) -> i32 {
    let Ok(status) = child.wait() else {
        return NO_MEMORY;
    };
    if let Some(signal) = status.signal() {
        eprintln!("serve: the core was ended by signal {signal}");
    }
    status.code().unwrap_or(NO_MEMORY)
}
