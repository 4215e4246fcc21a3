//! What an export of one folder has besides its files, so that the folder can be made again elsewhere: what there is in the order of its
//! tags, with dates and what clients stored, and which tags were ever told of it.
use crate::export::is_file_name;
use crate::http::{name_of, path_of};
use crate::json::{Json, quoted};
use crate::listing::Entry;
use crate::sha::sha256_text;
use crate::xml::Element;
use std::collections::{BTreeMap, BTreeSet};
use std::ffi::OsString;
use std::fs;
use std::os::unix::ffi::OsStringExt;
use std::path::{Path, PathBuf};

/// A file or folder: its path behind that of the moved folder, as in a URL, the number of its tag, and what is told of it.
#[derive(Debug, PartialEq)]
pub struct Item {
    pub path: String,
    pub number: u64,
    pub is_folder: bool,
    pub size: u64,
    pub modified: u64,
    /// The elements that clients stored, each as a text.
    pub dead: Vec<String>,
}

impl Item {
    /// What is told of an entry at or below a folder; none where it isn't there, or has no date.
    pub fn of(entry: &Entry, folder: &str) -> Option<Item> {
        let path = path_of(entry.href.trim_end_matches('/'))?.strip_prefix(folder)?.to_string();
        let dead = entry.dead.iter().map(Element::written).collect();
        Some(Item { path, number: entry.number, is_folder: entry.is_folder, size: entry.size, modified: entry.modified?, dead })
    }

    /// The path of the folder that it is in.
    pub fn above(&self) -> &str {
        self.path.rsplit_once('/').map_or("", |(above, _)| above)
    }

    /// Where it is as a plain file, below the folder of an export.
    pub fn place(&self, top: &Path) -> Option<PathBuf> {
        let names = self.path.split('/').skip(1).map(|segment| name_of(segment).map(OsString::from_vec));
        names.collect::<Option<Vec<_>>>().map(|names| names.iter().fold(top.to_path_buf(), |path, name| path.join(name)))
    }

    fn line(&self) -> String {
        let kind = if self.is_folder { "folder" } else { "file" };
        let (path, number, size, modified) = (quoted(&self.path), self.number, self.size, self.modified);
        format!("{{\"path\": {path}, \"kind\": \"{kind}\", \"number\": {number}, \"size\": {size}, \"modified\": {modified}}}")
    }

    fn read(json: &Json) -> Option<Item> {
        let is_folder = match json.text("kind")? {
            "folder" => true,
            "file" => false,
            _ => return None,
        };
        let path = path_of(json.text("path")?).filter(|path| path.split('/').skip(1).all(|segment| name_of(segment).is_some_and(|name| is_file_name(&name))))?;
        let (number, size, modified) = (json.number("number")?, json.number("size")?, json.number("modified")?);
        Some(Item { path, number, is_folder, size, modified, dead: Vec::new() })
    }
}

/// One folder of a state.
#[derive(Debug)]
pub struct Moved {
    /// Its path, as in a URL, without a slash at its end.
    pub folder: String,
    /// A number past all those of tags that were told of it, and the last moment at which any of it was changed.
    pub past: u64,
    pub moment: u64,
    /// The folder itself, and then all that is below it, in the order of their numbers.
    pub items: Vec<Item>,
}

/// The name of a file beside a folder.
pub fn beside(folder: &Path, what: &str) -> PathBuf {
    let mut name = folder.as_os_str().to_os_string();
    name.push(what);
    PathBuf::from(name)
}

pub const ORDER: &str = ".order.json";
pub const PROPERTIES: &str = ".properties.json";

/// What stands before the sum of both lists.
const SUM: &str = ", \"sum\": \"";

/// No server comes to as many changes: it would take 34 years of 1,000 in a second.
const MOST: u64 = 1 << 40;

impl Moved {
    pub fn new(folder: &str, past: u64, moment: u64, mut items: Vec<Item>) -> Moved {
        items.sort_by_key(|item| (!item.path.is_empty(), item.number));
        Moved { folder: folder.to_string(), past, moment, items }
    }

    /// A list of objects, one on each line; of which the first says what the folder is, and as its last member the SHA-256 of this list, without
    /// that member, and of the list of properties: so lists that were changed aren't taken for those that were written.
    pub fn text(&self, properties: &str) -> String {
        let first = format!("[{{\"folder\": {}, \"past\": {}, \"moment\": {}", quoted(&self.folder), self.past, self.moment);
        let lines: Vec<String> = self.items.iter().map(Item::line).collect();
        let rest = format!("}},\n {}\n]\n", lines.join(",\n "));
        let sum = sha256_text([&first, &rest, properties].concat().as_bytes());
        format!("{first}{SUM}{sum}\"{rest}")
    }

    /// Whether a list has the sum of both.
    fn is_sealed(order: &str, properties: &str) -> bool {
        let told = order.split_once(SUM).and_then(|(first, rest)| Some((first, rest.split_once('"')?)));
        told.is_some_and(|(first, (sum, rest))| sum == sha256_text([first, rest, properties].concat().as_bytes()))
    }

    /// Reads such a list, and that of the properties.
    fn read(order: &str, properties: &str) -> Option<Moved> {
        if !Moved::is_sealed(order, properties) {
            return None;
        }
        let order = Json::read(order)?;
        let (first, items) = order.items()?.split_first()?;
        let items = items.iter().map(Item::read).collect::<Option<Vec<_>>>()?;
        let mut moved = Moved::new(&path_of(first.text("folder")?)?, first.number("past")?, first.number("moment")?, items);
        let mut dead: BTreeMap<String, Vec<String>> = BTreeMap::new();
        for property in Json::read(properties)?.items()? {
            let path = path_of(property.text("path")?.trim_end_matches('/'))?.strip_prefix(&moved.folder)?.to_string();
            let xml = property.text("xml")?;
            dead.entry(path).or_default().push(Element::read(xml).filter(|element| element.written() == xml).map(|_| xml.to_string())?);
        }
        for item in &mut moved.items {
            item.dead = dead.remove(&item.path).unwrap_or_default();
        }
        (dead.is_empty() && moved.is_tree()).then_some(moved)
    }

    /// Whether it has each path once, each in a folder, its numbers differ and are below that of `past`, which a server may have.
    fn is_tree(&self) -> bool {
        let folders: BTreeSet<&str> = self.items.iter().filter(|item| item.is_folder).map(|item| &item.path[..]).collect();
        let paths: BTreeSet<&str> = self.items.iter().map(|item| &item.path[..]).collect();
        let numbers: BTreeSet<u64> = self.items.iter().map(|item| item.number).collect();
        let is_within = |item: &Item| item.path.is_empty() || item.path.starts_with('/') && folders.contains(item.above()) && !item.path.ends_with('/');
        let is_whole = paths.len() == self.items.len() && numbers.len() == self.items.len() && folders.contains("") && self.past < MOST;
        is_whole && self.items.iter().all(|item| is_within(item) && item.number < self.past)
    }

    /// What an export of a folder has beside it. Why it can't be had is said of the file.
    pub fn beside(from: &Path) -> Result<Moved, String> {
        let texts = [ORDER, PROPERTIES].map(|what| {
            let name = beside(from, what);
            fs::read_to_string(&name).map_err(|error| format!("{}: {error} (an export with --only makes it, where nothing was left out)", name.display()))
        });
        let [order, properties] = texts;
        Moved::read(&order?, &properties?).ok_or(format!("{}: it isn't what an export with --only writes, or one of both lists was changed", beside(from, ORDER).display()))
    }

    /// The name of the folder.
    pub fn name(&self) -> Option<Vec<u8>> {
        name_of(self.folder.rsplit('/').next()?)
    }

    /// A name of a folder that there is none of.
    pub fn free_name(&self) -> String {
        let is_free = |name: &String| !self.items.iter().any(|item| item.path == format!("/{name}"));
        (0..).map(|count| format!(".vuldarg-import{}", if count == 0 { String::new() } else { format!("-{count}") })).find(is_free).expect("there are few")
    }
}

#[cfg(test)]
mod tests {
    use super::*;

    fn item(path: &str, number: u64, is_folder: bool) -> Item {
        Item { path: path.to_string(), number, is_folder, size: 5, modified: 7, dead: Vec::new() }
    }

    #[test]
    fn is_read_again() {
        let moved = Moved::new("/t/a%20b", 9, 8, vec![item("/s/f", 2, false), item("/s", 5, true), item("", 7, true), item("/.vuldarg-import", 1, false)]);
        let order: Vec<&str> = moved.items.iter().map(|item| &item.path[..]).collect();
        assert_eq!(order, ["", "/.vuldarg-import", "/s/f", "/s"]);
        let properties = r#"[{"path": "/t/a%20b/s/", "namespace": "u", "name": "a", "xml": "<x:a xmlns:x=\"u\">&quot;</x:a>"}]"#;
        let again = Moved::read(&moved.text(properties), properties).unwrap();
        assert_eq!((&again.folder[..], again.past, again.moment, again.items.len()), ("/t/a%20b", 9, 8, 4));
        assert_eq!((&again.items[3].dead[..], again.name().unwrap()), (&["<x:a xmlns:x=\"u\">&quot;</x:a>".to_string()][..], b"a b".to_vec()));
        assert_eq!(again.free_name(), ".vuldarg-import-1");
        assert_eq!(again.items[2].place(Path::new("/x/a b")).unwrap(), Path::new("/x/a b/s/f"));
        for properties in ["", "[1]", r#"[{"path": "/t/a%20b/none", "namespace": "u", "name": "a", "xml": "<a/>"}]"#, r#"[{"path": "/t/a%20b/s", "xml": "<a/><b/>"}]"#] {
            assert!(Moved::read(&moved.text(properties), properties).is_none(), "{properties}");
        }
    }

    #[test]
    fn what_was_changed_is_refused() {
        let moved = Moved::new("/t", 9, 8, vec![item("", 1, true), item("/f", 2, false)]);
        let text = moved.text("[]\n");
        assert!(Moved::read(&text, "[]\n").is_some());
        for (old, new) in [("/t", "/s"), ("\"past\": 9", "\"past\": 99"), ("\"number\": 2", "\"number\": 3"), ("/f", "/g"), ("\"size\": 5", "\"size\": 6"), ("\"sum\"", "\"was\"")] {
            assert!(Moved::read(&text.replacen(old, new, 1), "[]\n").is_none(), "{old}");
        }
        assert!(Moved::read(&text, "[ ]\n").is_none());
        let moved = Moved::new("/t", MOST, 8, vec![item("", 1, true)]);
        assert!(Moved::read(&moved.text("[]"), "[]").is_none());
    }

    #[test]
    fn what_is_no_tree_is_refused() {
        for items in [
            vec![], vec![item("/f", 1, false)], vec![item("", 1, false)], vec![item("", 1, true), item("/f", 1, false)], vec![item("", 1, true), item("/s/f", 2, false)],
            vec![item("", 1, true), item("/f", 9, false)], vec![item("", 1, true), item("/f", 2, false), item("/f", 3, false)],
            vec![item("", 1, true), item("/f", 2, false), item("/f/g", 3, false)],
        ] {
            assert!(Moved::read(&Moved::new("/a", 9, 8, items).text("[]"), "[]").is_none());
        }
    }
}
