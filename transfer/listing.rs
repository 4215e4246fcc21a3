//! What a folder of the server has, by a PROPFIND of Depth 1 (RFC 4918, 9.1).
use crate::asking::{AskError, Asks};
use crate::http::{moment_of, name_of, path_of};
use crate::xml::Element;
use std::io;

/// The properties of `DAV:` that the server itself tells of all files and folders: any other one was stored by a client.
const LIVE: [&str; 8] =
    ["creationdate", "getcontentlength", "getcontenttype", "getetag", "getlastmodified", "lockdiscovery", "resourcetype", "supportedlock"];

/// A file or folder.
pub struct Entry {
    /// Its path, as in a URL.
    pub href: String,
    pub is_folder: bool,
    pub size: u64,
    /// The number of its entity tag, which is written in hexadecimal digits between quotation marks.
    pub number: u64,
    /// When it was last changed, in seconds since 1970.
    pub modified: Option<u64>,
    /// The tokens of its locks, and of those on folders above.
    pub tokens: Vec<String>,
    /// What clients stored with it.
    pub dead: Vec<Element>,
}

impl Entry {
    fn read(mut response: Element) -> Option<Entry> {
        let href = response.first("href")?.text();
        let mut entry = Entry { href, is_folder: false, size: 0, number: 0, modified: None, tokens: Vec::new(), dead: Vec::new() };
        for mut stat in response.take_all("propstat") {
            for property in stat.take_all("prop").into_iter().flat_map(Element::into_elements) {
                entry.take(property);
            }
        }
        Some(entry)
    }

    fn take(&mut self, property: Element) {
        if property.namespace != "DAV:" || !LIVE.contains(&property.name.as_str()) {
            self.dead.push(property);
            return;
        }
        match property.name.as_str() {
            "resourcetype" => self.is_folder = property.first("collection").is_some(),
            "getcontentlength" => self.size = property.text().parse().unwrap_or(0),
            "getetag" => self.number = u64::from_str_radix(property.text().trim_matches('"'), 16).unwrap_or(0),
            "getlastmodified" => self.modified = moment_of(&property.text()),
            "lockdiscovery" => {
                let tokens = property.all("activelock").filter_map(|lock| lock.first("locktoken"));
                self.tokens = tokens.map(Element::text).collect();
            }
            _ => {}
        }
    }

    /// The last name of its path.
    pub fn name(&self) -> Option<Vec<u8>> {
        name_of(self.href.trim_end_matches('/').rsplit('/').next()?)
    }
}

/// Whether two paths are of one resource, however their segments are escaped.
fn is_same(one: &str, other: &str) -> bool {
    path_of(one.trim_end_matches('/')) == path_of(other.trim_end_matches('/'))
}

/// The folder at a path, and what is right in it.
pub fn list(link: &mut dyn Asks, href: &str) -> Result<(Entry, Vec<Entry>), AskError> {
    let response = link.ask("PROPFIND", href, "Depth: 1\r\n", &mut io::empty(), 0)?;
    let text = String::from_utf8(response.body).ok().filter(|_| response.status == 207);
    let mut root = text.and_then(|text| Element::read(&text)).ok_or(AskError::Ended)?;
    let mut entries = Vec::new();
    for response in root.take_all("response") {
        entries.push(Entry::read(response).ok_or(AskError::Ended)?);
    }
    let own = entries.iter().position(|entry| is_same(&entry.href, href)).ok_or(AskError::Ended)?;
    let folder = entries.remove(own);
    Ok((folder, entries))
}

/// All folders and files from a path on, a folder before what is in it.
pub fn walk(link: &mut dyn Asks, top: &str) -> Result<Vec<Entry>, AskError> {
    let mut found = Vec::new();
    let mut folders = vec![top.to_string()];
    while let Some(href) = folders.pop() {
        let (folder, members) = list(link, &href)?;
        found.push(folder);
        for member in members {
            if member.is_folder {
                folders.push(member.href);
            } else {
                found.push(member);
            }
        }
    }
    Ok(found)
}
