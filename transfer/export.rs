//! Writes all files of a state as plain files, with their times, and what clients stored as properties as one file of JSON beside.
use crate::asking::{AskError, Asks};
use crate::core::{Core, Link};
use crate::json::quoted;
use crate::listing::{Entry, list, walk};
use crate::moved::{Item as Told, Moved, ORDER, PROPERTIES, beside};
use crate::progress::Progress;
use crate::workers::for_each;
use crate::xml::Element;
use crate::{Ended, Words, begin_copy, say};
use std::collections::HashMap;
use std::ffi::OsString;
use std::fs::{self, File, FileTimes};
use std::io::{self, ErrorKind, Read, Write};
use std::os::unix::ffi::OsStringExt;
use std::path::{Path, PathBuf};
use std::time::{Duration, UNIX_EPOCH};

/// So many files are held at once, each whole.
const GETTING: usize = 3;

/// A file or folder to write: its path in a URL, where it comes, its length and its time.
struct Item {
    href: String,
    to: PathBuf,
    size: u64,
    modified: Option<u64>,
}

/// Where each file and folder comes; a name that no file can have is named, and what is below it is left out.
fn places(entries: &[Entry], to: &Path, progress: &Progress) -> (Vec<Item>, Vec<Item>) {
    let mut paths: HashMap<&str, PathBuf> = HashMap::new();
    let (mut folders, mut files) = (Vec::new(), Vec::new());
    for (place, entry) in entries.iter().enumerate() {
        let href = entry.href.trim_end_matches('/');
        let above = href.rsplit_once('/').map_or("", |(above, _)| above);
        let path = match (place, paths.get(above), entry.name()) {
            (0, ..) => to.to_path_buf(),
            (_, Some(above), Some(name)) if is_file_name(&name) => above.join(OsString::from_vec(name)),
            _ => {
                progress.name(&entry.href, "no file can have that name here");
                continue;
            }
        };
        if entry.is_folder {
            paths.insert(href, path.clone());
        }
        let item = Item { href: entry.href.clone(), to: path, size: entry.size, modified: entry.modified };
        if entry.is_folder { folders.push(item) } else { files.push(item) }
    }
    (folders, files)
}

pub fn is_file_name(name: &[u8]) -> bool {
    !matches!(name, b"" | b"." | b"..") && !name.contains(&b'/') && !name.contains(&0)
}

fn set_time(file: &File, modified: Option<u64>) -> io::Result<()> {
    match modified {
        Some(moment) => file.set_times(FileTimes::new().set_modified(UNIX_EPOCH + Duration::from_secs(moment))),
        None => Ok(()),
    }
}

/// Writes a file that the server has.
fn get(link: &mut Link, item: &Item, progress: &Progress) -> Result<(), AskError> {
    let response = link.ask("GET", &item.href, "", &mut io::empty(), 0)?;
    if response.status != 200 || response.body.len() as u64 != item.size {
        progress.name(&item.href, format!("it is answered {} with {} bytes", response.status, response.body.len()));
        return Ok(());
    }
    let written = File::create_new(&item.to).and_then(|mut file| {
        file.write_all(&response.body)?;
        set_time(&file, item.modified)
    });
    match written {
        Ok(()) => progress.add(1, item.size),
        Err(error) => progress.name(item.to.display(), error),
    }
    Ok(())
}

fn line_of(href: &str, property: &Element) -> String {
    let [path, namespace, name, xml] = [href, &property.namespace, &property.name, &property.written()].map(quoted);
    format!("{{\"path\": {path}, \"namespace\": {namespace}, \"name\": {name}, \"xml\": {xml}}}")
}

/// The properties that clients stored, a list of objects, one on each line; and how many they are.
fn properties_of(entries: &[Entry]) -> (String, usize) {
    let lines: Vec<String> = entries.iter().flat_map(|entry| entry.dead.iter().map(|property| line_of(&entry.href, property))).collect();
    let end = if lines.is_empty() { "" } else { "\n" };
    (format!("[{}{end}]\n", lines.join(",\n ")), lines.len())
}

/// How the lists beside the folder of an export begin.
const BEGINS: [(&str, &[&str]); 2] = [(PROPERTIES, &["[]\n", "[{\"path\": "]), (ORDER, &["[{\"folder\": "])];

/// Sees that what has the name of a list is one of an earlier export, which had a folder of this name: it gives way to the new one.
fn see_beside(to: &Path) -> Result<(), Ended> {
    for (what, begins) in BEGINS {
        let name = beside(to, what);
        let mut begin = Vec::new();
        match File::open(&name).and_then(|file| file.take(16).read_to_end(&mut begin)) {
            Err(error) if error.kind() == ErrorKind::NotFound => {}
            Err(error) => return Err(Ended::refused(&name, error)),
            Ok(_) if begins.iter().any(|told| begin.starts_with(told.as_bytes())) => {}
            Ok(_) => return Err(Ended::refused(&name, "it is there, and isn't what an export writes: move it away, or export to another name")),
        }
    }
    Ok(())
}

/// The name that a list has until it is whole.
fn part_of(to: &Path, what: &str) -> PathBuf {
    beside(to, &format!("{what}.part"))
}

/// Writes a list beside the folder, whole or not at all.
fn write_list(to: &Path, what: &str, text: &str) -> Result<(), Ended> {
    let part = part_of(to, what);
    let written = fs::write(&part, text).and_then(|()| fs::rename(&part, beside(to, what)));
    written.map_err(|error| {
        let _ = fs::remove_file(&part);
        Ended::refused(&beside(to, what), error)
    })
}

/// Writes the lists, in place of those of an earlier export: no order of that one is ever beside the properties of this one.
fn write_lists(to: &Path, properties: &str, moved: Option<&Moved>) -> Result<(), Ended> {
    let order = beside(to, ORDER);
    match fs::remove_file(&order) {
        Err(error) if error.kind() != ErrorKind::NotFound => return Err(Ended::refused(&order, error)),
        _ => write_list(to, PROPERTIES, properties)?,
    }
    moved.map_or(Ok(()), |moved| write_list(to, ORDER, &moved.text(properties)))
}

/// Makes the folder of an export; one that is there has to be empty.
pub fn make_empty(to: &Path) -> Result<(), Ended> {
    match fs::create_dir(to) {
        Err(error) if error.kind() == ErrorKind::AlreadyExists => match fs::read_dir(to).map(|mut entries| entries.next().is_none()) {
            Ok(true) => Ok(()),
            Ok(false) => Err(Ended::Refused(format!("{} isn't empty", to.display()))),
            Err(error) => Err(Ended::refused(to, error)),
        },
        made => made.map_err(|error| Ended::refused(to, error)),
    }
}

fn transfer(core: &Core, folders: &[Item], files: &[Item], progress: &Progress) -> Result<(), AskError> {
    for folder in &folders[1..] {
        if let Err(error) = fs::create_dir(&folder.to) {
            progress.name(folder.to.display(), error);
        }
    }
    for_each(core, GETTING, files, |link, item| get(link, item, progress))?;
    for folder in folders.iter().rev() {
        let _ = File::open(&folder.to).and_then(|file| set_time(&file, folder.modified));
    }
    Ok(())
}

/// What is exported, and of one folder what moves it.
struct Found {
    entries: Vec<Entry>,
    moved: Option<Moved>,
}

/// Finds all there is; of one folder that is told besides what it is to be moved by. The state is a private copy.
fn find(core: &Core, words: &Words) -> Result<Found, Ended> {
    let failed = |_: AskError| Ended::of(2);
    let mut link = core.connect().map_err(AskError::from).map_err(failed)?;
    let Some(only) = &words.only else {
        return walk(&mut link, &words.top()).map(|entries| Found { entries, moved: None }).map_err(failed);
    };
    let folder = words.folder_of(only);
    let asked = link.ask("PROPFIND", &folder, "Depth: 0\r\n", &mut io::empty(), 0).map_err(failed)?;
    let entries = if asked.status == 207 { walk(&mut link, &folder).map_err(failed)? } else { Vec::new() };
    if !entries.first().is_some_and(|entry| entry.is_folder) {
        return Err(Ended::Refused(format!("{}: there is no folder '{only}' at its top", words.folder)));
    }
    let locked: Vec<&str> = entries.iter().filter(|entry| !entry.tokens.is_empty()).map(|entry| &entry.href[..]).collect();
    if !locked.is_empty() && !words.without_locks {
        let why = "is locked, and locks aren't exported: end the locks, or leave them out by --without-locks";
        return Err(Ended::Refused(format!("{} ({} in all) {why}", locked[0], locked.len())));
    }
    let items: Option<Vec<Told>> = entries.iter().map(|entry| Told::of(entry, &folder)).collect();
    let mut moved = Moved::new(&folder, 0, 0, items.ok_or(Ended::of(2))?);
    // What the next change takes: no tag that was told of the folder, or will be of what is there, is as late, and no date later.
    let next = format!("{folder}/{}", moved.free_name());
    link.ask("PUT", &next, "", &mut io::empty(), 0).map_err(failed)?;
    let next = list(&mut link, &next).map_err(failed)?.0;
    moved.past = next.number;
    moved.moment = next.modified.ok_or(Ended::of(2))?;
    Ok(Found { entries, moved: Some(moved) })
}

/// Where the folder comes that is exported, which is made where it isn't the one of the export.
fn place_of(to: &Path, words: &Words) -> Result<PathBuf, Ended> {
    match &words.only {
        None => Ok(to.to_path_buf()),
        Some(only) => {
            let place = to.join(only);
            fs::create_dir(&place).map_err(|error| Ended::refused(&place, error))?;
            Ok(place)
        }
    }
}

/// Exports the state of a folder to another, or one folder of it.
pub fn export(words: &Words) -> Result<bool, Ended> {
    let to = PathBuf::from(words.other.trim_end_matches('/'));
    see_beside(&to)?;
    make_empty(&to)?;
    let part = part_of(&to, PROPERTIES);
    File::create(&part).map_err(|error| Ended::refused(&part, error))?;
    let exported = export_to(words, &to);
    if exported.is_err() {
        let _ = fs::remove_file(&part);
    }
    exported
}

fn export_to(words: &Words, to: &Path) -> Result<bool, Ended> {
    let core = begin_copy(words, &[], words.only.is_none())?;
    let found = match find(&core, words) {
        Ok(found) => found,
        Err(ended) => {
            let status = core.end();
            return Err(if matches!(ended, Ended::Refused(_)) { ended } else { Ended::of(status) });
        }
    };
    let entries = &found.entries;
    let (count, bytes) = entries.iter().filter(|entry| !entry.is_folder).fold((0, 0), |(count, bytes), file| (count + 1, bytes + file.size));
    let progress = Progress::new(count, bytes);
    let (folders, files) = places(entries, &place_of(to, words)?, &progress);
    let done = progress.during(|| transfer(&core, &folders, &files, &progress));
    let status = core.end();
    if done.is_err() || status != 0 {
        return Err(Ended::of(status));
    }
    let (properties, count) = properties_of(entries);
    write_lists(to, &properties, found.moved.as_ref().filter(|_| progress.named() == 0))?;
    let list = beside(to, PROPERTIES);
    say(&format!("exported {}; {count} properties are in {}\n", progress.counts(folders.len() - 1), list.display()));
    Ok(progress.named() == 0)
}

#[cfg(test)]
mod tests {
    use super::*;

    #[test]
    fn lines() {
        let element = Element::read("<x:a xmlns:x=\"u\">\"</x:a>").unwrap();
        assert_eq!(line_of("/b%20c", &element), r#"{"path": "/b%20c", "namespace": "u", "name": "a", "xml": "<x:a xmlns:x=\"u\">&quot;</x:a>"}"#);
    }

    #[test]
    fn names() {
        assert!(is_file_name(b"a") && is_file_name(b"...") && is_file_name("ü".as_bytes()));
        assert!(![&b""[..], b".", b"..", b"a/b", b"a\0"].into_iter().any(is_file_name));
    }
}
