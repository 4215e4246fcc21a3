//! The files of a state (docs/SERVE.md, "How it is built"): a private copy of them, and what their blocks have.
use std::fs::{self, File};
use std::io::{self, BufReader, ErrorKind, Read, Seek, SeekFrom};
use std::path::Path;
use std::thread;
use std::time::{Duration, SystemTime};

pub const FILES: [&str; 2] = ["state", "state-wal"];

/// Where blocks begin; the bytes before the content of one; those of a file by which it is seen that it begins anew.
const START: u64 = 72;
const HEAD: usize = 49;
const FIRST: usize = 57;

/// How often a copy is tried of a state whose journal begins anew meanwhile.
const TRIES: usize = 100;

/// The bytes of a file by which it is seen that it begins anew; none where it is missing.
pub fn first_bytes(path: &Path) -> io::Result<Option<Vec<u8>>> {
    Ok(look(path)?.map(|(first, ..)| first))
}

/// The first bytes from `START` on, the length and the time of a file; none where it is missing.
type Look = Option<(Vec<u8>, u64, Option<SystemTime>)>;

fn look(path: &Path) -> io::Result<Look> {
    let mut file = match File::open(path) {
        Ok(file) => file,
        Err(error) if error.kind() == ErrorKind::NotFound => return Ok(None),
        Err(error) => return Err(error),
    };
    let told = file.metadata()?;
    file.seek(SeekFrom::Start(START))?;
    let mut first = Vec::new();
    file.take(FIRST as u64).read_to_end(&mut first)?;
    Ok(Some((first, told.len(), told.modified().ok())))
}

/// Whether two looks at both files, before they were copied and after, show that the copy is the state of one moment: no file was touched,
/// or neither began anew, and one of them alone has a block.
fn is_one_moment(before: &[Look; 2], after: &[Look; 2]) -> bool {
    let first = |look: &Look| look.as_ref().map(|(first, ..)| first.clone());
    let has_block = |look: &Look| first(look).is_some_and(|first| first.first() == Some(&1));
    let untouched = before == after;
    let same = before.iter().zip(after).all(|(one, other)| first(one) == first(other));
    untouched || same && has_block(&before[0]) != has_block(&before[1])
}

/// Copies the state of a folder into another one, also while a server has it open: then it is that of some moment meanwhile. `Ok(false)`:
/// there is none. Of `others` those are copied that are there.
pub fn copy(folder: &Path, room: &Path, others: &[&str]) -> io::Result<bool> {
    for name in others {
        if folder.join(name).exists() {
            fs::copy(folder.join(name), room.join(name))?;
        }
    }
    for _ in 0..TRIES {
        let before = [look(&folder.join(FILES[0]))?, look(&folder.join(FILES[1]))?];
        if before.iter().all(Option::is_none) {
            return Ok(false);
        }
        for name in FILES {
            match fs::copy(folder.join(name), room.join(name)) {
                Err(error) if error.kind() != ErrorKind::NotFound => return Err(error),
                _ => {}
            }
        }
        if is_one_moment(&before, &[look(&folder.join(FILES[0]))?, look(&folder.join(FILES[1]))?]) {
            return Ok(true);
        }
        thread::sleep(Duration::from_millis(100));
    }
    Err(io::Error::other("the journal began anew during each of 100 copies"))
}

/// What the blocks of the file that counts have.
#[derive(Debug, Default, PartialEq)]
pub struct Blocks {
    /// The name of the file, and the bytes that its blocks take.
    pub file: &'static str,
    pub bytes: u64,
    pub generation: u64,
    pub count: u64,
    /// Whether the first block has a snapshot.
    pub has_snapshot: bool,
    /// How many requests are recorded, since the snapshot if there is one.
    pub requests: u64,
    /// The latest moment of a recorded request, also of those before the snapshot.
    pub latest: u64,
    /// The length of the last block's content.
    last: u64,
}

/// Reads numbers and texts of a block.
pub struct Reading<R> {
    pub from: R,
    pub left: u64,
}

impl<R: Read + Seek> Reading<R> {
    fn bytes<const COUNT: usize>(&mut self) -> io::Result<[u8; COUNT]> {
        self.left = self.left.checked_sub(COUNT as u64).ok_or(ErrorKind::UnexpectedEof)?;
        let mut bytes = [0u8; COUNT];
        self.from.read_exact(&mut bytes)?;
        Ok(bytes)
    }

    fn number(&mut self) -> io::Result<u64> {
        Ok(u64::from_be_bytes(self.bytes()?))
    }

    fn skip(&mut self, count: u64) -> io::Result<()> {
        self.left = self.left.checked_sub(count).ok_or(ErrorKind::UnexpectedEof)?;
        self.from.seek_relative(count as i64)
    }

    /// Skips a text that may be missing.
    fn skip_optional(&mut self) -> io::Result<()> {
        if self.bytes::<1>()? == [1] { self.skip_text() } else { Ok(()) }
    }

    fn skip_text(&mut self) -> io::Result<()> {
        let length = self.number()?;
        self.skip(length)
    }

    /// The first block: generation, prefix and, if there is one, the snapshot: tokens, latest moment and what is saved. The generation and
    /// that moment.
    pub fn first(&mut self) -> io::Result<(u64, Option<u64>)> {
        let generation = self.number()?;
        self.skip_text()?;
        if self.left == 0 {
            return Ok((generation, None));
        }
        self.number()?;
        let latest = self.number()?;
        self.skip(self.left)?;
        Ok((generation, Some(latest)))
    }

    /// A record of a turn: moment, status, principal, token, head and body. The moment.
    pub fn record(&mut self) -> io::Result<u64> {
        let moment = self.number()?;
        self.bytes::<2>()?;
        self.skip_optional()?;
        self.skip_optional()?;
        self.skip_text()?;
        self.skip_text()?;
        Ok(moment)
    }
}

impl Blocks {
    /// The blocks of a file, from its front on; none where it has no block. That they are whole is for the program to see.
    fn read(name: &'static str, file: impl Read + Seek) -> io::Result<Option<Blocks>> {
        let mut found = Blocks { file: name, bytes: START, ..Blocks::default() };
        let mut file = Reading { from: file, left: u64::MAX };
        file.skip(START)?;
        while matches!(file.bytes::<1>(), Ok([1])) {
            let length = file.number()?;
            file.skip(HEAD as u64 - 9)?;
            file.left = length;
            if found.count == 0 { found.take_first(&mut file)? } else { found.take_records(&mut file)? }
            file.left = u64::MAX;
            found.count += 1;
            found.bytes += HEAD as u64 + length;
            found.last = length;
        }
        Ok((found.count > 0).then_some(found))
    }

    /// The same without the block, which has nothing in it, that the last start wrote.
    pub fn before_start(mut self) -> Blocks {
        if self.count > 1 && self.last == 0 {
            self.count -= 1;
            self.bytes -= HEAD as u64;
        }
        self
    }

    fn take_first(&mut self, block: &mut Reading<impl Read + Seek>) -> io::Result<()> {
        let (generation, latest) = block.first()?;
        self.generation = generation;
        self.has_snapshot = latest.is_some();
        self.latest = latest.unwrap_or(0);
        Ok(())
    }

    /// The records of a turn.
    fn take_records(&mut self, block: &mut Reading<impl Read + Seek>) -> io::Result<()> {
        while block.left > 0 {
            self.latest = self.latest.max(block.record()?);
            self.requests += 1;
        }
        Ok(())
    }

    /// The blocks of the file that counts: of two that have some, that of the higher generation.
    pub fn of(folder: &Path) -> io::Result<Option<Blocks>> {
        let mut found: Option<Blocks> = None;
        for name in FILES {
            let Ok(file) = File::open(folder.join(name)) else { continue };
            let blocks = Blocks::read(name, BufReader::new(file))?;
            if blocks.as_ref().is_some_and(|new| found.as_ref().is_none_or(|old| old.generation < new.generation)) {
                found = blocks;
            }
        }
        Ok(found)
    }
}
