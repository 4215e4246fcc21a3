//! Makes an exported folder in a state that has others: over pipes, or at a server that is up. What is there under its name is never changed
//! but by an import that goes on with its own, and each tag that the folder gets there is past all that it had where it comes from.
use crate::answers::{check, is_later, reason};
use crate::asking::{AskError, Asks, Small};
use crate::http::http_date;
use crate::listing::{list, walk};
use crate::moved::{Item, Moved};
use crate::progress::Progress;
use std::collections::{BTreeMap, BTreeSet};
use std::fs::{self, File};
use std::io;
use std::path::Path;
use std::thread::sleep;
use std::time::Duration;

/// Why a folder isn't made.
pub enum Stop {
    /// There is no answer.
    Asking(AskError),
    /// For this reason.
    Refused(String),
}

impl From<AskError> for Stop {
    fn from(error: AskError) -> Stop {
        Stop::Asking(error)
    }
}

pub type Made<T> = Result<T, Stop>;

pub fn refused<T>(why: impl Into<String>) -> Made<T> {
    Err(Stop::Refused(why.into()))
}

/// A file of more bytes is sent by itself; the others in requests of so many bytes together.
const SMALL: u64 = 16_384;
const TOGETHER: usize = 60_000;

/// The most bytes of elements in one PROPPATCH, whose body is a MiB at most; one element is always taken.
const ELEMENTS: usize = 900_000;

/// To count on, so many empty files are copied, and so many copies of these together.
const COUNTING: usize = 64;

/// Counting on by more than so many changes takes half a minute and longer, and is said.
const MANY: u64 = 2_000_000;

/// How far the clock may be behind, in seconds: so long it is waited.
const BEHIND: u64 = 60;

/// How often a request is made anew that is to come again later (503, 429).
const TRIES: usize = 60;
const LATER: Duration = Duration::from_secs(1);

/// The place at which a folder is made.
pub struct Making<'m> {
    pub asks: &'m mut dyn Asks,
    /// The path of the folder there, without a slash at its end.
    pub to: String,
    pub moved: &'m Moved,
    /// Where its files are.
    pub from: &'m Path,
    pub progress: &'m Progress,
}

impl Making<'_> {
    fn at(&self, path: &str) -> String {
        format!("{}{path}", self.to)
    }

    /// Makes a request that has to be answered with this status.
    fn must(&mut self, wanted: u16, method: &str, path: &str, fields: &str) -> Made<()> {
        let response = self.asks.ask(method, path, fields, &mut io::empty(), 0)?;
        if response.status == wanted { Ok(()) } else { refused(format!("{method} {path}: {}", reason(response.status))) }
    }

    /// Makes requests one after another, of which each has to be answered so.
    fn must_all(&mut self, requests: &mut Vec<Small>) -> Made<()> {
        let mut tries = 0;
        while !requests.is_empty() {
            let responses = self.asks.ask_all(requests)?;
            if responses.is_empty() {
                return Err(AskError::Ended.into());
            }
            for response in responses {
                if is_later(response.status) && tries < TRIES {
                    tries += 1;
                    sleep(LATER);
                    break;
                }
                let request = requests.remove(0);
                check(&request, &response)?;
            }
        }
        Ok(())
    }

    /// Adds a request to those that are made together.
    fn add(&mut self, requests: &mut Vec<Small>, request: Small) -> Made<()> {
        let size = |request: &Small| request.body.len() + request.path.len() + request.fields.len() + 500;
        if requests.iter().map(size).sum::<usize>() + size(&request) > TOGETHER {
            self.must_all(requests)?;
        }
        requests.push(request);
        if requests.iter().map(size).sum::<usize>() > TOGETHER { self.must_all(requests) } else { Ok(()) }
    }

    /// Whether anything is there.
    fn is_there(&mut self) -> Made<bool> {
        match self.asks.ask("PROPFIND", &self.to, "Depth: 0\r\n", &mut io::empty(), 0)?.status {
            207 => Ok(true),
            404 => Ok(false),
            status => refused(format!("{}: {}; nothing was changed", self.to, reason(status))),
        }
    }

    /// Sees that what is there is a part of what is to be made, and takes it away. `aside` is the name of the folder for what waits.
    fn clear(&mut self, aside: &str) -> Made<()> {
        let items: BTreeMap<String, &Item> = self.moved.items.iter().map(|item| (item.path.clone(), item)).collect();
        let waiting = self.moved.items.iter().enumerate().map(|(place, item)| (format!("/{aside}/{place}"), item));
        let items: BTreeMap<String, &Item> = items.into_iter().chain(waiting).collect();
        let numbers = format!("/{aside}/numbers");
        self.asks.ask("DELETE", &self.at(&numbers), "", &mut io::empty(), 0)?;
        for entry in walk(self.asks, &self.to)? {
            let Some(found) = Item::of(&entry, &self.to) else { return refused(format!("{}: it has no date", entry.href)) };
            if found.path == format!("/{aside}") {
                continue;
            }
            let other = format!("{} at {} is there, and isn't what is imported; nothing was changed", found.path, self.to);
            let Some(item) = items.get(&found.path) else { return refused(other) };
            let is_part = (item.is_folder, item.size) == (found.is_folder, found.size) && found.dead.iter().all(|xml| item.dead.contains(xml));
            if !is_part || !found.is_folder && !self.has_bytes(&entry.href, item)? {
                return refused(other);
            }
        }
        self.must(204, "DELETE", &self.to.clone(), "")
    }

    /// Whether a file there has the bytes of an item.
    fn has_bytes(&mut self, href: &str, item: &Item) -> Made<bool> {
        let response = self.asks.ask("GET", href, "", &mut io::empty(), 0)?;
        let path = item.place(self.from).ok_or(Stop::Refused(format!("{}: no file can be there", item.path)))?;
        let bytes = fs::read(&path).map_err(|error| Stop::Refused(format!("{}: {error}", path.display())))?;
        Ok(response.status == 200 && response.body == bytes)
    }

    /// The number that a change takes at a path, and its moment.
    fn counted(&mut self, path: &str) -> Made<(u64, u64)> {
        let response = self.asks.ask("PUT", path, "", &mut io::empty(), 0)?;
        if !matches!(response.status, 201 | 204) {
            return refused(format!("PUT {path}: {}", reason(response.status)));
        }
        let entry = list(self.asks, path)?.0;
        match entry.modified {
            Some(moment) if entry.number > 0 => Ok((entry.number, moment)),
            _ => refused(format!("{path}: it has no tag or no date, as a server of this program tells")),
        }
    }

    /// Waits until the clock there is past the last change where the folder comes from; the number that a change takes by then.
    fn wait(&mut self, probe: &str) -> Made<u64> {
        loop {
            let (number, moment) = self.counted(probe)?;
            if moment > self.moved.moment {
                return Ok(number);
            }
            if moment + BEHIND < self.moved.moment {
                return refused(format!("the clock there is {} seconds behind that of the export: set it first", self.moved.moment - moment));
            }
            sleep(LATER);
        }
    }

    /// Has the place count past all numbers of tags that were told of the folder where it comes from, and its clock go on: so no tag and no
    /// date that a client has stands for what it didn't see.
    fn count_on(&mut self, within: &str) -> Made<()> {
        self.must(201, "MKCOL", within, "")?;
        let [probe, one, two] = ["last", "one", "two"].map(|name| format!("{within}/{name}"));
        let mut number = self.wait(&probe)?;
        if number >= self.moved.past {
            return Ok(());
        }
        if self.moved.past - number > MANY {
            eprintln!("vuldarg: first it counts on by {} changes, so that no tag of before comes again", self.moved.past - number);
        }
        let folders = [&one, &format!("{one}/files")].map(|path| Small::new("MKCOL", path, "", Vec::new()));
        let files = (0..COUNTING).map(|count| Small::new("PUT", &format!("{one}/files/{count}"), "", Vec::new()));
        self.must_all(&mut folders.into_iter().chain(files).collect())?;
        let mut taken = 0;
        for count in 0.. {
            let (from, to) = if count < COUNTING { (format!("{one}/files"), format!("{one}/{count}")) } else { (one.clone(), two.clone()) };
            let response = self.asks.ask("COPY", &from, &format!("Destination: {to}\r\n"), &mut io::empty(), 0)?;
            if !matches!(response.status, 201 | 204) {
                return refused(format!("COPY {from}: {}", reason(response.status)));
            }
            taken += if count < COUNTING { COUNTING } else { COUNTING * COUNTING } as u64;
            if number + taken < self.moved.past {
                continue;
            }
            let before = std::mem::replace(&mut number, self.counted(&probe)?.0);
            if number <= before {
                return refused(format!("{probe}: its tag doesn't grow"));
            }
            if number >= self.moved.past {
                break;
            }
            taken = 0;
        }
        Ok(())
    }

    /// The request that makes a file or folder, at a path; none of a large file, which is put by itself.
    fn request(&self, item: &Item, at: &str) -> Made<Option<Small>> {
        if item.is_folder {
            return Ok(Some(Small::new("MKCOL", at, "", Vec::new())));
        }
        if item.size > SMALL {
            return Ok(None);
        }
        let path = item.place(self.from).ok_or(Stop::Refused(format!("{}: no file can be there", item.path)))?;
        match fs::read(&path) {
            Ok(bytes) if bytes.len() as u64 == item.size => Ok(Some(Small::new("PUT", at, "If-None-Match: *\r\n", bytes))),
            Ok(bytes) => refused(format!("{}: it has {} bytes, and not {}", path.display(), bytes.len(), item.size)),
            Err(error) => refused(format!("{}: {error}", path.display())),
        }
    }

    fn put(&mut self, item: &Item, at: &str) -> Made<()> {
        let path = item.place(self.from).ok_or(Stop::Refused(format!("{}: no file can be there", item.path)))?;
        for _ in 0..TRIES {
            let opened = File::open(&path).and_then(|file| Ok((file.metadata()?.len(), file)));
            let (size, mut file) = opened.map_err(|error| Stop::Refused(format!("{}: {error}", path.display())))?;
            if size != item.size {
                return refused(format!("{}: it has {size} bytes, and not {}", path.display(), item.size));
            }
            let response = match self.asks.ask("PUT", at, "If-None-Match: *\r\n", &mut file, size) {
                Err(AskError::Body(error)) => return refused(format!("{}: {error}", path.display())),
                asked => asked?,
            };
            if !is_later(response.status) {
                return check(&Small::new("PUT", at, "", Vec::new()), &response);
            }
            sleep(LATER);
        }
        refused(format!("PUT {at}: {}", reason(503)))
    }

    /// Makes all that is in the folder, in the order of the numbers. What comes before its folder (it was moved there) waits aside until that
    /// is there: a move changes no number.
    fn fill(&mut self, aside: &str) -> Made<()> {
        let moved = self.moved;
        let mut places: BTreeSet<&str> = BTreeSet::from([""]);
        let (mut waiting, mut requests) = (Vec::new(), Vec::new());
        for (place, item) in moved.items.iter().enumerate().skip(1) {
            let is_waiting = !places.contains(item.above());
            let at = self.at(&if is_waiting { format!("/{aside}/{place}") } else { item.path.clone() });
            match self.request(item, &at)? {
                Some(request) => self.add(&mut requests, request)?,
                None => {
                    self.must_all(&mut requests)?;
                    self.put(item, &at)?;
                }
            }
            if is_waiting {
                waiting.push((item, at));
            } else if item.is_folder {
                places.insert(&item.path);
            }
            self.progress.add(u64::from(!item.is_folder), item.size);
        }
        waiting.sort_by_key(|(item, _)| item.path.matches('/').count());
        for (item, at) in &waiting {
            let fields = format!("Destination: {}\r\nOverwrite: F\r\n", self.at(&item.path));
            self.add(&mut requests, Small::new("MOVE", at, &fields, Vec::new()))?;
        }
        self.must_all(&mut requests)
    }

    /// Stores what clients stored, and sets the times, once nothing else changes any more: neither changes a tag.
    fn dress(&mut self, items: &[Item]) -> Made<()> {
        let mut requests = Vec::new();
        for item in items {
            let date = format!("<D:getlastmodified>{}</D:getlastmodified>", http_date(item.modified));
            let mut within = String::new();
            for xml in item.dead.iter().chain([&date]) {
                if !within.is_empty() && within.len() + xml.len() > ELEMENTS {
                    let request = Small::new("PROPPATCH", &self.at(&item.path), "", set(&within));
                    self.add(&mut requests, request)?;
                    within.clear();
                }
                within.push_str(xml);
            }
            let request = Small::new("PROPPATCH", &self.at(&item.path), "", set(&within));
            self.add(&mut requests, request)?;
        }
        self.must_all(&mut requests)
    }

    /// Sees that all is there as it was where it comes from, and nothing else, in the same order, past all numbers of before; or all but
    /// what is told of the folder itself.
    fn compare(&mut self, skipped: usize) -> Made<()> {
        let entries = walk(self.asks, &self.to)?;
        let items: Option<Vec<Item>> = entries.iter().map(|entry| Item::of(entry, &self.to)).collect();
        let items = items.ok_or(Stop::Refused(format!("{}: something there has no date", self.to)))?;
        let found = Moved::new(&self.to, u64::MAX, 0, items);
        if let Some(item) = found.items.iter().find(|item| item.number < self.moved.past) {
            return refused(format!("{}: its tag isn't past those of before", self.at(&item.path)));
        }
        let told = |item: &Item| {
            let dead: BTreeSet<String> = item.dead.iter().cloned().collect();
            (item.path.clone(), item.is_folder, item.size, item.modified, dead)
        };
        let [found, wanted] = [&found.items, &self.moved.items].map(|items| items.iter().skip(skipped).map(told).collect::<Vec<_>>());
        match found.iter().zip(&wanted).find(|(found, wanted)| found != wanted) {
            Some((found, wanted)) => refused(format!("it isn't there as it was: {found:?} and not {wanted:?}")),
            None if found.len() != wanted.len() => refused(format!("there are {} files and folders, and not {}", found.len(), wanted.len())),
            None => Ok(()),
        }
    }

    /// Makes the folder. `again`: what an import that broke off left of it may be there, or all of it.
    pub fn make(&mut self, again: bool) -> Made<()> {
        let aside = self.moved.free_name();
        if self.is_there()? {
            if !again {
                return refused(format!("{} is there already; nothing was changed (an import that broke off can be begun again with --again)", self.to));
            }
            if !self.is_begun(&aside)? {
                return self.end();
            }
            self.clear(&aside)?;
        }
        self.make_anew(&aside).map_err(|stop| match stop {
            Stop::Refused(why) => Stop::Refused(format!("{why}; the folder isn't whole: begin it again with --again")),
            stop => stop,
        })
    }

    fn make_anew(&mut self, aside: &str) -> Made<()> {
        let to = self.to.clone();
        self.must(201, "MKCOL", &to, "")?;
        self.must(201, "MKCOL", &self.at(&format!("/{aside}")), "")?;
        self.count_on(&self.at(&format!("/{aside}/numbers")))?;
        self.must(204, "DELETE", &to, "")?;
        self.must(201, "MKCOL", &to, "")?;
        self.must(201, "MKCOL", &self.at(&format!("/{aside}")), "")?;
        self.fill(aside)?;
        let (own, items) = self.moved.items.split_at(1);
        self.dress(items)?;
        self.must(204, "DELETE", &self.at(&format!("/{aside}")), "")?;
        self.dress(own)?;
        self.compare(0)
    }

    /// Whether what is there was begun by an import and not ended: its folder for what waits is there, or nothing yet.
    fn is_begun(&mut self, aside: &str) -> Made<bool> {
        let (_, members) = list(self.asks, &self.to)?;
        Ok(members.is_empty() || members.iter().any(|member| member.name().as_deref() == Some(aside.as_bytes())))
    }

    /// Ends an import that ended, or lacks but what is told of the folder itself: it may be in use, so nothing else is changed.
    fn end(&mut self) -> Made<()> {
        if self.compare(0).is_ok() {
            return Ok(());
        }
        self.compare(1).map_err(|stop| match stop {
            Stop::Refused(why) => Stop::Refused(format!("{} is there, and isn't what is imported; nothing was changed: {why}", self.to)),
            stop => stop,
        })?;
        self.dress(&self.moved.items[..1])?;
        self.compare(0)
    }
}

fn set(within: &str) -> String {
    format!("<D:propertyupdate xmlns:D=\"DAV:\"><D:set><D:prop>{within}</D:prop></D:set></D:propertyupdate>")
}
