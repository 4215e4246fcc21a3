//! Fills an empty state from plain files: names, bytes and times.
use crate::asking::{AskError, Asks};
use crate::client::{Client, Site};
use crate::core::{Core, Link, Start};
use crate::http::{http_date, path_of, segment_of};
use crate::listing::list;
use crate::making::{Making, Stop};
use crate::moved::Moved;
use crate::progress::Progress;
use crate::workers::for_each;
use crate::{Ended, Words, say};
use std::collections::HashMap;
use std::fs::{self, DirBuilder, File, Metadata};
use std::io::{self, Read};
use std::os::unix::fs::{DirBuilderExt, MetadataExt};
use std::path::{Path, PathBuf};

/// The last second that a date can tell: the end of 9999.
const LAST_SECOND: i64 = 253_402_300_799;

/// So many files are put at once: they share syncs of the disk. Of each 64 KiB are held.
const PUTTING: usize = 32;

/// A file or folder to import: where it is, and its path in a URL.
struct Item {
    from: PathBuf,
    href: String,
    depth: usize,
    size: u64,
    modified: i64,
}

#[derive(Default)]
struct Items {
    folders: Vec<Item>,
    files: Vec<Item>,
    /// What is neither a file nor a folder, or can't be read, and why.
    others: Vec<(PathBuf, String)>,
}

impl Items {
    /// All that is in a folder, in the order of names, a folder before what is in it.
    fn collect(&mut self, folder: &Path, href: &str, depth: usize) {
        let entries = match fs::read_dir(folder).and_then(Iterator::collect::<io::Result<Vec<_>>>) {
            Ok(entries) => entries,
            Err(error) => return self.others.push((folder.to_path_buf(), error.to_string())),
        };
        let mut names: Vec<_> = entries.into_iter().map(|entry| entry.file_name()).collect();
        names.sort();
        for name in names {
            let from = folder.join(&name);
            match fs::symlink_metadata(&from) {
                Ok(told) if told.is_dir() => {
                    let href = format!("{href}{}/", segment_of(&name));
                    self.folders.push(Item { from: from.clone(), href: href.clone(), depth, size: 0, modified: told.mtime() });
                    self.collect(&from, &href, depth + 1);
                }
                Ok(told) if told.is_file() => {
                    self.files.push(Item { from, href: format!("{href}{}", segment_of(&name)), depth, size: told.len(), modified: told.mtime() });
                }
                Ok(_) => self.others.push((from, "is neither a file nor a folder, and is left out".to_string())),
                Err(error) => self.others.push((from, error.to_string())),
            }
        }
    }
}

/// What keeps a request from being made or granted, said of a file or folder.
fn told(asked: Result<u16, AskError>, item: &Item, progress: &Progress) -> Result<bool, AskError> {
    match asked {
        Ok(201 | 204 | 207) => return Ok(true),
        Ok(status) => progress.name(item.from.display(), reason(status)),
        Err(AskError::Body(error)) => progress.name(item.from.display(), error),
        Err(error) => return Err(error),
    }
    Ok(false)
}

fn reason(status: u16) -> String {
    let reason = match status {
        400 | 403 => "it has a name that can't be one",
        409 => "its folder isn't there",
        413 => "it has more bytes than --body",
        414 | 431 => "its path is too long",
        507 => "there is no room",
        _ => "it is refused",
    };
    format!("{reason} ({status})")
}

/// Puts a file, with its time where a date can tell that.
fn put(link: &mut Link, item: &Item, progress: &Progress) -> Result<(), AskError> {
    let opened = File::open(&item.from).and_then(|file| Ok((file.metadata()?, file)));
    let (before, mut file) = match opened {
        Ok(opened) => opened,
        Err(error) => {
            progress.name(item.from.display(), error);
            return Ok(());
        }
    };
    let time = before.mtime();
    let fields = if (0..=LAST_SECOND).contains(&time) { format!("X-OC-Mtime: {time}\r\n") } else { String::new() };
    let mut body = Counted { file: &mut file, progress, count: 0 };
    let asked = link.ask("PUT", &item.href, &fields, &mut body, before.len()).map(|response| response.status);
    let count = body.count;
    if told(asked, item, progress)? {
        progress.add(1, 0);
        if !file.metadata().is_ok_and(|after| is_same(&before, &after)) {
            progress.name(item.from.display(), "it was changed while it was read");
        }
    } else {
        progress.take_back(count);
    }
    Ok(())
}

fn is_same(before: &Metadata, after: &Metadata) -> bool {
    (before.len(), before.mtime(), before.mtime_nsec()) == (after.len(), after.mtime(), after.mtime_nsec())
}

/// A file whose bytes are counted as they are read.
struct Counted<'c> {
    file: &'c mut File,
    progress: &'c Progress,
    count: u64,
}

impl Read for Counted<'_> {
    fn read(&mut self, piece: &mut [u8]) -> io::Result<usize> {
        let count = self.file.read(piece)?;
        self.progress.add(0, count as u64);
        self.count += count as u64;
        Ok(count)
    }
}

/// Sets the time of a folder, once nothing in it changes any more (RFC 4918, 9.2).
fn date(link: &mut Link, item: &Item) -> Result<(), AskError> {
    let Some(moment) = u64::try_from(item.modified).ok().filter(|_| item.modified <= LAST_SECOND) else { return Ok(()) };
    let body = format!(
        "<D:propertyupdate xmlns:D=\"DAV:\"><D:set><D:prop><D:getlastmodified>{}</D:getlastmodified></D:prop></D:set></D:propertyupdate>",
        http_date(moment)
    );
    link.ask("PROPPATCH", &item.href, "", &mut body.as_bytes(), body.len() as u64).map(|_| ())
}

/// Imports all items, where nothing is there yet. `own` is the folder at the top.
fn transfer(core: &Core, items: &Items, own: &Item, progress: &Progress) -> Result<bool, AskError> {
    if !list(&mut core.connect()?, &own.href)?.1.is_empty() {
        return Ok(false);
    }
    let deepest = items.folders.iter().map(|folder| folder.depth + 1).max().unwrap_or(0);
    for depth in 0..deepest {
        let level: Vec<&Item> = items.folders.iter().filter(|folder| folder.depth == depth).collect();
        for_each(core, PUTTING, &level, |link, item| {
            let asked = link.ask("MKCOL", &item.href, "", &mut io::empty(), 0).map(|response| response.status);
            told(asked, item, progress).map(|_| ())
        })?;
    }
    for_each(core, PUTTING, &items.files, |link, item| put(link, item, progress))?;
    for_each(core, PUTTING, &items.folders, date)?;
    date(&mut core.connect()?, own)?;
    Ok(true)
}

/// Starts the program that has the state, to fill it. No snapshot meanwhile: the journal has each file once as it is.
fn begin(words: &Words) -> Result<Core, Ended> {
    let folder = Path::new(&words.folder);
    DirBuilder::new().recursive(true).mode(0o700).create(folder).map_err(|error| Ended::refused(folder, error))?;
    let is_within = match (Path::new(&words.other).canonicalize(), folder.canonicalize()) {
        (Ok(from), Ok(folder)) => folder.starts_with(from),
        _ => false,
    };
    if is_within {
        return Err(Ended::Refused(format!("the state in {} is itself in {}", folder.display(), words.other)));
    }
    let mut options = words.options.clone();
    options.extend(["--snapshot-past".to_string(), u64::MAX.to_string()]);
    let start = Start { program: &words.program, folder: &words.folder, options: &options, said_of: &words.folder, as_owner: true, own_login: true };
    Core::start(&start).map_err(|error| Ended::refused(Path::new(&words.program), error))
}

/// Imports a folder into the state of another.
pub fn import(words: &Words) -> Result<bool, Ended> {
    let (from, folder) = (Path::new(&words.other), Path::new(&words.folder));
    if !from.is_dir() {
        return Err(Ended::Refused(format!("{} is no folder", from.display())));
    }
    let top = words.top();
    let mut items = Items::default();
    items.collect(from, &top, 0);
    let own = Item { from: from.to_path_buf(), href: top.clone(), depth: 0, size: 0, modified: from.metadata().map_or(-1, |told| told.mtime()) };
    let progress = Progress::new(items.files.len() as u64, items.files.iter().map(|file| file.size).sum());
    let core = begin(words)?;
    for (path, why) in &items.others {
        progress.name(path.display(), why);
    }
    let done = progress.during(|| transfer(&core, &items, &own, &progress));
    let status = core.end();
    if status != 0 {
        return Err(Ended::Program(status));
    }
    match done {
        Ok(true) => {
            say(&format!("imported {}\n", progress.counts(items.folders.len())));
            Ok(progress.named() == 0)
        }
        Ok(false) => Err(Ended::Refused(format!("the state in {} has files; an import fills an empty one", folder.display()))),
        Err(_) => Err(Ended::Program(2)),
    }
}

/// Sees that the files of an export are those that it tells of, each with its length.
fn is_whole(moved: &Moved, from: &Path) -> Result<(), Ended> {
    let mut found = Items::default();
    found.collect(from, "/", 0);
    if let Some((path, why)) = found.others.first() {
        return Err(Ended::refused(path, why));
    }
    let path_of = |item: &Item| path_of(item.href.trim_end_matches('/'));
    let told: HashMap<_, _> = moved.items.iter().skip(1).map(|item| (Some(item.path.clone()), (item.is_folder, item.size))).collect();
    let there = found.folders.iter().map(|item| (item, true)).chain(found.files.iter().map(|item| (item, false)));
    for (item, is_folder) in there {
        if told.get(&path_of(item)) != Some(&(is_folder, item.size)) {
            return Err(Ended::refused(&item.from, "it isn't what was exported"));
        }
    }
    if found.folders.len() + found.files.len() != told.len() {
        return Err(Ended::refused(from, "some of what was exported isn't there"));
    }
    Ok(())
}

/// Imports one folder of another state, which was exported, into a state that has others, or at a server that is up.
pub fn import_moved(words: &Words) -> Result<bool, Ended> {
    let (from, only) = (Path::new(words.other.trim_end_matches('/')), words.only.as_deref().unwrap_or(""));
    let moved = Moved::beside(from).map_err(Ended::Refused)?;
    if moved.name().as_deref() != Some(only.as_bytes()) {
        return Err(Ended::refused(from, format!("it is an export of {}, and not of '{only}'", moved.folder)));
    }
    let files = from.join(only);
    is_whole(&moved, &files)?;
    let all = moved.items.iter().filter(|item| !item.is_folder);
    let progress = Progress::new(all.clone().count() as u64, all.map(|file| file.size).sum());
    let make = |asks: &mut dyn Asks, prefix: &str| {
        let to = format!("{prefix}/{}", segment_of(only.as_ref()));
        progress.during(|| Making { asks, to, moved: &moved, from: &files, progress: &progress }.make(words.again))
    };
    let (made, status) = match &words.to {
        Some(url) => {
            let site = Site::read(url, words.login.as_deref()).map_err(Ended::Refused)?;
            (make(&mut Client::new(&site), &site.prefix), 0)
        }
        None => {
            let core = begin(words)?;
            let made = match core.connect() {
                Ok(mut link) => make(&mut link, words.top().trim_end_matches('/')),
                Err(error) => Err(Stop::Asking(error.into())),
            };
            (made, core.end())
        }
    };
    let place = words.to.as_deref().unwrap_or(&words.folder);
    match made {
        Ok(()) if status == 0 => {
            let folders = moved.items.iter().filter(|item| item.is_folder).count() - 1;
            say(&format!("imported {}, with all that clients stored, in the order of their tags\n", progress.counts(folders)));
            Ok(true)
        }
        Err(Stop::Refused(why)) => Err(Ended::Refused(format!("{place}: {why}"))),
        Err(Stop::Asking(AskError::Lost(error))) => Err(Ended::Refused(format!("{place}: {error}; begin it again with --again"))),
        _ => Err(Ended::of(status)),
    }
}
