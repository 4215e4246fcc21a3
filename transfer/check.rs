//! Says what a state has, and changes nothing.
use crate::asking::AskError;
use crate::http::internet_date;
use crate::listing::{Entry, walk};
use crate::state::Blocks;
use crate::{Ended, Words, begin_copy, say};
use std::collections::BTreeSet;
use std::fs;
use std::path::Path;
use std::time::{SystemTime, UNIX_EPOCH};

const DAY: u64 = 86_400;

/// How many users a list has: its names, of lines `name:secret`; none where there is no list.
fn users(folder: &Path) -> Option<usize> {
    let text = fs::read(folder.join("users")).ok()?;
    let text = String::from_utf8_lossy(&text);
    let lines = text.lines().filter(|line| !line.starts_with('#') && !line.is_empty());
    Some(lines.filter_map(|line| line.split_once(':')).map(|(name, _)| name).collect::<BTreeSet<_>>().len())
}

/// Which version had the state last, as `serve` noted it.
fn version(folder: &Path) -> String {
    fs::read_to_string(folder.join("state.version")).map_or("not noted".to_string(), |text| text.trim_end().to_string())
}

/// The date of the last change, and whether a clock was ahead then: the server's clock goes on from there.
fn date_of(latest: u64) -> String {
    let now = SystemTime::now().duration_since(UNIX_EPOCH).map_or(u64::MAX, |since| since.as_secs());
    match latest {
        0 => "none".to_string(),
        _ if latest > now.saturating_add(DAY) => {
            let date = internet_date(latest);
            format!("{date}, {} days ahead of the clock here (vuldarg cut copies the state of before)", (latest - now) / DAY)
        }
        _ => internet_date(latest),
    }
}

/// What the state has, a line for each.
fn told(folder: &Path, room: &Path, entries: &[Entry]) -> Result<String, Ended> {
    let blocks = Blocks::of(room).map_err(|error| Ended::refused(folder, error))?.unwrap_or_default().before_start();
    let files: Vec<&Entry> = entries.iter().filter(|entry| !entry.is_folder).collect();
    let tokens: BTreeSet<&String> = entries.iter().flat_map(|entry| &entry.tokens).collect();
    let properties: usize = entries.iter().map(|entry| entry.dead.len()).sum();
    let state = format!("{}, generation {}, {} bytes", folder.join(blocks.file).display(), blocks.generation, blocks.bytes);
    let since = if blocks.has_snapshot { " since the snapshot" } else { "" };
    let lines = [
        ("state", state),
        ("blocks", format!("{}, the first {} a snapshot", blocks.count, if blocks.has_snapshot { "with" } else { "without" })),
        ("requests", format!("{} recorded{since}", blocks.requests)),
        ("files", format!("{} in {} folders", files.len(), entries.len() - files.len() - 1)),
        ("bytes", files.iter().map(|file| file.size).sum::<u64>().to_string()),
        ("properties", format!("{properties} that clients stored")),
        ("locks", tokens.len().to_string()),
        ("users", users(room).map_or("no list".to_string(), |count| count.to_string())),
        ("last change", date_of(blocks.latest)),
        ("served last by", version(folder)),
        ("damage", "none".to_string()),
    ];
    Ok(lines.map(|(name, value)| format!("{name}: {value}\n")).concat())
}

/// Checks the state of a folder by a start over a copy of it.
pub fn check(words: &Words) -> Result<bool, Ended> {
    let core = begin_copy(words, &["users", "access"], true)?;
    let entries = core.connect().map_err(AskError::from).and_then(|mut link| walk(&mut link, &words.top()));
    let status = core.end();
    match (entries, status) {
        (Ok(entries), 0) => {
            say(&told(Path::new(&words.folder), Path::new(&words.room), &entries)?);
            Ok(true)
        }
        (_, status) => Err(Ended::of(status)),
    }
}
