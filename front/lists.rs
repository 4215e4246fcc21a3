//! The list of users and the rules of access: two files of a folder, which are read where they change.
use std::fs;
use std::io::ErrorKind;
use std::os::unix::fs::MetadataExt;

/// What tells that a file is another one: its number, when it was changed last, and its length; none where it isn't there.
type Stamp = Option<(u64, i64, i64, u64)>;

/// The files by their names.
const USERS: &str = "users";
const ACCESS: &str = "access";

/// The two files.
pub struct Lists {
    folder: String,
    seen: Seen,
}

/// What was seen of both.
struct Seen {
    /// When they were read last.
    read: [Stamp; 2],
    /// When they were looked at last.
    last: [Stamp; 2],
    /// Whether they were ever there.
    there: [bool; 2],
}

impl Lists {
    /// Those of a folder, as they are now.
    pub fn new(folder: String) -> Lists {
        let now = stamps(&folder);
        let there = now.map(|stamp| stamp.is_some());
        Lists { folder, seen: Seen { read: now, last: now, there } }
    }

    /// Reads both where one changed since they were read, and stays for a second: one that is being written isn't read yet.
    pub fn changed(&mut self) -> Option<Result<Vec<u8>, String>> {
        let now = stamps(&self.folder);
        let stays = now == self.seen.last;
        self.seen.last = now;
        (stays && now != self.seen.read).then(|| read(&self.folder, &mut self.seen, now))
    }

    /// Reads both.
    pub fn read(&mut self) -> Result<Vec<u8>, String> {
        let now = stamps(&self.folder);
        self.seen.last = now;
        read(&self.folder, &mut self.seen, now)
    }
}

fn stamps(folder: &str) -> [Stamp; 2] {
    [USERS, ACCESS].map(|name| {
        let data = fs::metadata(format!("{folder}/{name}")).ok()?;
        Some((data.ino(), data.ctime(), data.ctime_nsec(), data.size()))
    })
}

/// The text of the users and, where there are rules, a zero and theirs. Without a list of users nothing comes before the zero.
fn read(folder: &str, seen: &mut Seen, now: [Stamp; 2]) -> Result<Vec<u8>, String> {
    seen.read = now;
    let users = text(folder, USERS, &mut seen.there[0])?;
    let access = text(folder, ACCESS, &mut seen.there[1])?;
    let Some(access) = access else {
        return users.ok_or(format!("{folder}/{USERS} isn't there"));
    };
    let mut both = users.unwrap_or_default();
    both.push(0);
    both.extend_from_slice(&access);
    Ok(both)
}

/// The text of a file; none where it isn't there, and never was.
fn text(folder: &str, name: &str, was_there: &mut bool) -> Result<Option<Vec<u8>>, String> {
    let file = format!("{folder}/{name}");
    match fs::read(&file) {
        Ok(text) => {
            *was_there = true;
            if name == ACCESS {
                // That there were rules is noted beside the state, as at a start: so that they are gone isn't taken for "each user may do everything".
                fs::File::create_new(format!("{folder}/state.ruled")).ok();
            }
            if name == USERS && text.contains(&0) {
                return Err(format!("{file}: a byte of it is zero"));
            }
            if name == USERS && text.is_empty() {
                return Err(format!("{file}: there is no user in it"));
            }
            Ok(Some(text))
        }
        Err(error) if error.kind() == ErrorKind::NotFound && !*was_there => Ok(None),
        Err(error) => Err(format!("{file}: {error}")),
    }
}
