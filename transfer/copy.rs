//! Copies a state, also while a server has it: the whole blocks of the file that counts, to now or to a moment. So a copy at any speed is the
//! state of one moment, and neither what is being written nor a journal that begins anew meanwhile is in it.
use crate::digest::Digest;
use crate::export::make_empty;
use crate::http::internet_date;
use crate::state::{FILES, Reading, first_bytes};
use crate::{Ended, Words, say};
use std::fs::{self, File};
use std::io::{self, BufReader, ErrorKind, Seek, SeekFrom};
use std::os::unix::fs::FileExt;
use std::path::Path;
use std::thread;
use std::time::{Duration, Instant};

/// Where blocks begin, and the bytes of one before its content.
const START: u64 = 72;
const HEAD: u64 = 49;

/// So much is copied at once.
const PIECE: u64 = 1 << 20;

/// How often a copy is tried of a state whose journal begins anew meanwhile, and how often at the rate that is told: then as fast as it can be.
const TRIES: usize = 100;
const SLOW_TRIES: usize = 2;

/// How often a block is read that isn't whole, since it may be being written, and how long it is waited in between.
const LOOKS: usize = 40;
const MOMENT: Duration = Duration::from_millis(50);

/// The files beside a state that are copied with it.
const OTHERS: [&str; 3] = ["users", "access", "state.ruled"];

/// How far a copy came.
#[derive(Default)]
struct Done {
    blocks: u64,
    end: u64,
    latest: u64,
    /// The moment of the first change behind the one up to which it was to go, if there is one.
    next: Option<u64>,
}

/// The head of a block: the length of its content, how many of its bytes are 0, its digest and the head's own.
#[derive(PartialEq)]
struct Head {
    length: u64,
    zeros: u64,
    told: u64,
    own: u64,
}

fn number(bytes: &[u8], at: usize) -> u64 {
    bytes[at..at + 8].iter().fold(0, |all, byte| all << 8 | u64::from(*byte))
}

/// A number and its complement.
fn twice(number: u64) -> [u8; 16] {
    (u128::from(number) << 64 | u128::from(!number)).to_be_bytes()
}

impl Head {
    /// None where the gate is shut, or a number isn't that of its complement.
    fn read(bytes: &[u8]) -> Option<Head> {
        let is_twice = |at| number(bytes, at) == !number(bytes, at + 8);
        let is_one = bytes[0] == 1 && is_twice(1) && is_twice(17);
        is_one.then(|| Head { length: number(bytes, 1), zeros: number(bytes, 17), told: number(bytes, 33), own: number(bytes, 41) })
    }

    /// That of a content with this digest.
    fn of(key: u64, place: u64, length: u64, zeros: u64, told: u64) -> Head {
        let mut own = Digest::new(key);
        [place, length, told].iter().for_each(|number| own.add(&number.to_be_bytes()));
        Head { length, zeros, told, own: own.end() }
    }

    fn bytes(&self) -> Vec<u8> {
        [&[1][..], &twice(self.length), &twice(self.zeros), &self.told.to_be_bytes(), &self.own.to_be_bytes()].concat()
    }
}

/// The file that counts, and what is made of it.
struct Copy<'c> {
    from: &'c File,
    to: File,
    key: u64,
    /// Up to which moment.
    until: u64,
    /// How many bytes in a second, at most.
    rate: u64,
    begun: Instant,
    done: Done,
}

impl Copy<'_> {
    /// The head of the block at this place; none where no whole one is there. One that is being written is waited for.
    fn head_at(&self, place: u64) -> io::Result<Option<Head>> {
        for _ in 0..LOOKS {
            let mut bytes = [0; HEAD as usize];
            match self.from.read_exact_at(&mut bytes, place) {
                Err(error) if error.kind() == ErrorKind::UnexpectedEof => return Ok(None),
                read => read?,
            }
            if bytes[0] != 1 {
                return Ok(None);
            }
            if let Some(head) = Head::read(&bytes)
                && place + HEAD + head.length <= self.from.metadata()?.len()
                && head == self.head_of(place, head.length, None)?
            {
                return Ok(Some(head));
            }
            thread::sleep(MOMENT);
        }
        Ok(None)
    }

    /// The head of a block with so many bytes of the content that is there; where it is told, they are written behind a place for it.
    fn head_of(&self, place: u64, length: u64, to: Option<&File>) -> io::Result<Head> {
        let (mut digest, mut zeros, mut done) = (Digest::new(self.key), 0, 0);
        let mut piece = vec![0; length.min(PIECE) as usize];
        while done < length {
            let count = (length - done).min(PIECE) as usize;
            self.from.read_exact_at(&mut piece[..count], place + HEAD + done)?;
            digest.add(&piece[..count]);
            zeros += piece[..count].iter().filter(|byte| **byte == 0).count() as u64;
            if let Some(to) = to {
                to.write_all_at(&piece[..count], place + HEAD + done)?;
                self.rest(place + HEAD + done + count as u64);
            }
            done += count as u64;
        }
        Ok(Head::of(self.key, place, length, zeros, digest.end()))
    }

    /// Rests until no more than may be was copied.
    fn rest(&self, copied: u64) {
        let least = Duration::from_secs_f64(copied as f64 / self.rate as f64);
        thread::sleep(least.saturating_sub(self.begun.elapsed()));
    }

    /// How many bytes of a block's content are of requests up to the moment.
    fn kept(&mut self, place: u64, length: u64) -> io::Result<u64> {
        let mut file = BufReader::new(self.from);
        file.seek(SeekFrom::Start(place + HEAD))?;
        let mut block = Reading { from: file, left: length };
        if self.done.blocks == 0 {
            self.done.latest = block.first()?.1.unwrap_or(0);
            if self.done.latest > self.until {
                let date = internet_date(self.done.latest);
                return Err(io::Error::other(format!("its journal begins with the state of {date}: what was before isn't in it")));
            }
            return Ok(length);
        }
        let mut kept = 0;
        while block.left > 0 {
            let moment = block.record()?;
            if moment > self.until {
                self.done.next = Some(moment);
                break;
            }
            self.done.latest = self.done.latest.max(moment);
            kept = length - block.left;
        }
        Ok(kept)
    }

    /// Copies blocks until no whole one follows, the moment is passed, or the place where the file ended when the copy was begun.
    fn blocks(&mut self) -> io::Result<()> {
        let last = self.from.metadata()?.len();
        while self.done.end < last
            && let Some(head) = self.head_at(self.done.end)?
        {
            let place = self.done.end;
            let length = self.kept(place, head.length)?;
            if length > 0 || head.length == 0 {
                let head = self.head_of(place, length, Some(&self.to))?;
                self.to.write_all_at(&head.bytes(), place)?;
                self.done.blocks += 1;
                self.done.end = place + HEAD + length;
            }
            if self.done.next.is_some() {
                return Ok(());
            }
        }
        Ok(())
    }

    /// The front and the mark of a copy that has all its blocks, and the gate after them.
    fn close(&mut self, front: &[u8]) -> io::Result<()> {
        self.to.write_all_at(&[0], self.done.end)?;
        let front = [&front[..24], &twice(self.done.end), &[0; 32]].concat();
        self.to.write_all_at(&front, 0)?;
        self.to.sync_all()
    }
}

/// The last place that a mark of the file says its blocks to have reached.
fn marked(front: &[u8]) -> u64 {
    let marks = [24, 40, 56].into_iter().filter(|at| number(front, *at) == !number(front, *at + 8));
    marks.map(|at| number(front, at)).max().unwrap_or(0)
}

/// Copies a file of the state to another one. None where its journal began anew meanwhile; it may have no whole block.
fn copy_file(from: &Path, to: &Path, until: u64, rate: u64) -> io::Result<Option<Done>> {
    let file = File::open(from)?;
    let mut front = [0; START as usize];
    file.read_exact_at(&mut front, 0)?;
    let first = first_bytes(from)?;
    let done = Done { end: START, ..Done::default() };
    let to = File::create(to)?;
    let mut copy = Copy { from: &file, to, key: number(&front, 8), until, rate, begun: Instant::now(), done };
    let copied = copy.blocks();
    if first_bytes(from)? != first {
        return Ok(None);
    }
    copied?;
    if copy.done.blocks == 0 {
        return Ok(Some(copy.done));
    }
    let reached = marked(&front);
    if copy.done.next.is_none() && reached > copy.done.end {
        let name = from.file_name().unwrap_or_default().display();
        return Err(io::Error::other(format!("{name} is damaged at byte {}", copy.done.end)));
    }
    copy.close(&front)?;
    Ok(Some(copy.done))
}

/// The names of the files that may count, that of the higher generation first: the other one does where its first block isn't whole.
fn counting(folder: &Path) -> io::Result<Vec<&'static str>> {
    let mut found = Vec::new();
    for name in FILES {
        let Some(first) = first_bytes(&folder.join(name))? else { continue };
        if first.len() as u64 == HEAD + 8 && first[0] == 1 {
            found.push((number(&first, HEAD as usize), name));
        }
    }
    found.sort_unstable();
    Ok(found.into_iter().rev().map(|(_, name)| name).collect())
}

/// Copies the blocks of the file that counts.
fn copy_blocks(folder: &Path, to: &Path, until: u64, rate: u64) -> io::Result<Done> {
    for turn in 0..TRIES {
        let rate = if turn < SLOW_TRIES { rate } else { u64::MAX };
        let names = counting(folder)?;
        let Some(newest) = names.first().copied() else {
            return Err(io::Error::other("it has no block"));
        };
        let mut is_anew = false;
        for name in names {
            match copy_file(&folder.join(name), to, until, rate)? {
                Some(done) if done.blocks > 0 => return Ok(done),
                done => is_anew |= done.is_none(),
            }
        }
        if !is_anew {
            return Err(io::Error::other(format!("{newest} is damaged at byte {START}")));
        }
    }
    Err(io::Error::other(format!("its journal began anew during each of {TRIES} copies")))
}

/// The number of an option.
fn option(words: &Words, name: &str) -> Option<u64> {
    let at = words.options.iter().position(|word| word == name)?;
    words.options.get(at + 1)?.parse().ok()
}

/// Copies the blocks, and what is beside them.
fn copy_all(folder: &Path, to: &Path, until: u64, rate: u64) -> io::Result<Done> {
    let part = to.join("state.part");
    let done = copy_blocks(folder, &part, until, rate).and_then(|done| match done.next {
        Some(next) if done.latest == 0 => {
            Err(io::Error::other(format!("nothing was kept by {}: the first change is of {}", internet_date(until), internet_date(next))))
        }
        _ => Ok(done),
    });
    if done.is_err() {
        let _ = fs::remove_file(&part);
    }
    let done = done?;
    for name in OTHERS.into_iter().filter(|name| folder.join(name).exists()) {
        fs::copy(folder.join(name), to.join(name))?;
    }
    for name in ["state-wal", "state.begun"] {
        File::create(to.join(name))?.sync_all()?;
    }
    fs::rename(&part, to.join("state"))?;
    File::open(to)?.sync_all()?;
    Ok(done)
}

/// Copies the state of a folder to an empty one.
pub fn copy(words: &Words) -> Result<bool, Ended> {
    let (folder, to) = (Path::new(&words.folder), Path::new(&words.other));
    make_empty(to)?;
    let (until, rate) = (option(words, "--at").unwrap_or(u64::MAX), option(words, "--rate").unwrap_or(u64::MAX));
    let done = copy_all(folder, to, until, rate).map_err(|error| Ended::refused(folder, error))?;
    let last = if done.latest == 0 { "none".to_string() } else { internet_date(done.latest) };
    say(&format!("blocks: {}\nbytes: {}\nlast change: {last}\n", done.blocks, done.end));
    Ok(true)
}
