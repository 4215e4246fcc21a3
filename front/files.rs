//! The two files of the state: whether their names still lead to those that the core opened.
use std::fs;
use std::os::unix::fs::MetadataExt;

/// The disk and the number of a file; none where it can't be asked.
type Number = Option<(u64, u64)>;

/// The files by their names.
const NAMES: [&str; 2] = ["state", "state-wal"];

/// The files of a folder, as they were when the core had opened them.
pub struct Files {
    folder: String,
    opened: [Number; 2],
}

impl Files {
    /// Those of a folder, as they are now.
    pub fn new(folder: String) -> Files {
        let opened = numbers(&folder);
        Files { folder, opened }
    }

    /// The file whose name leads elsewhere now, or nowhere, if there is one.
    pub fn lost(&self) -> Option<String> {
        let now = numbers(&self.folder);
        let place = (0..NAMES.len()).find(|place| now[*place] != self.opened[*place])?;
        Some(format!("{}/{}", self.folder, NAMES[place]))
    }
}

fn numbers(folder: &str) -> [Number; 2] {
    NAMES.map(|name| fs::metadata(format!("{folder}/{name}")).ok().map(|data| (data.dev(), data.ino())))
}
