//! The list of the users, FOLDER/users: a user is added, gets another password, or is taken away.
use crate::crypt::{SIGNS, secret_of};
use crate::http::name_of;
use crate::{Ended, Words, say};
use std::fs::{self, DirBuilder, File, OpenOptions};
use std::io::{self, ErrorKind, Read, Write, stdin};
use std::os::unix::fs::{DirBuilderExt, MetadataExt, OpenOptionsExt, fchown};
use std::path::{Path, PathBuf};

/// The most bytes of a password, and of what is read to find one.
const LONGEST: usize = 72;
const READ: u64 = 4_096;

/// The signs of a salt, each of six bits.
const SALT: usize = 16;

/// The file of the list, and the one that becomes it.
const USERS: &str = "users";
const NEW: &str = "state.users";

/// Why a name can't be one; none where it can.
fn fault_of_name(name: &str) -> Option<&'static str> {
    let is_odd = |sign: char| sign.is_ascii_control() || matches!(sign, '\u{fffe}' | '\u{ffff}');
    match name {
        "" => Some("it is empty"),
        "everybody" | "users" => Some("it is a word of FOLDER/access"),
        _ if name.contains(':') => Some("it has a colon, which ends a name"),
        _ if name.starts_with('#') => Some("a line that begins with # is a comment"),
        _ if name.trim() != name => Some("it begins or ends with a blank"),
        _ if name.chars().any(is_odd) => Some("it has a character that no name may have"),
        _ => None,
    }
}

/// Why a password can't be one; none where it can.
fn fault_of_password(password: &str) -> Option<String> {
    if password.is_empty() {
        Some("it is empty".to_string())
    } else if password.len() > LONGEST {
        Some(format!("it has {} bytes, and {LONGEST} at most are taken", password.len()))
    } else if password.chars().any(|sign| sign.is_ascii_control()) {
        Some("it has a control character, which no client may send".to_string())
    } else {
        None
    }
}

/// The first line of an input.
fn first_line(input: impl Read) -> Result<String, Ended> {
    let mut bytes = Vec::new();
    input.take(READ).read_to_end(&mut bytes).map_err(|error| Ended::Refused(format!("the password can't be read: {error}")))?;
    let line = bytes.split(|byte| *byte == b'\n').next().unwrap_or_default();
    String::from_utf8(line.to_vec()).map_err(|_| Ended::Refused("the password isn't UTF-8; nothing was changed".to_string()))
}

/// A salt that nobody else has.
fn salt() -> io::Result<String> {
    let mut random = [0; SALT];
    File::open("/dev/urandom")?.read_exact(&mut random)?;
    Ok(random.map(|byte| char::from(SIGNS[usize::from(byte & 63)])).iter().collect())
}

/// The name of a line; none of one that is empty or a comment.
fn name_in(line: &str) -> Option<&str> {
    let line = line.trim();
    line.split_once(':').map(|(name, _)| name).filter(|_| !line.starts_with('#'))
}

/// A list in which the first line of a name is this one, or none is; all others of it are gone, and the rest is as it was.
fn changed(list: &str, name: &str, mut line: Option<String>) -> String {
    let mut text = String::new();
    for old in list.split_inclusive('\n') {
        if name_in(old) != Some(name) {
            text.push_str(old);
        } else if let Some(line) = line.take() {
            text.push_str(&line);
        }
        if !text.is_empty() && !text.ends_with('\n') {
            text.push('\n');
        }
    }
    text.push_str(&line.unwrap_or_default());
    text
}

/// The number of the first line, from 1 on, with which no server reads a list: it is neither a user's, nor a comment, nor empty.
fn fault_of_list(list: &str) -> Option<usize> {
    let is_secret = |text: &str| text.strip_prefix("$5$").and_then(|rest| rest.rsplit_once('$')).is_some_and(|(_, digest)| digest.len() == 43);
    let is_user = |line: &str| line.split_once(':').is_some_and(|(name, secret)| !name.is_empty() && is_secret(secret));
    let is_fault = |line: &str| !line.is_empty() && !line.starts_with('#') && !is_user(line);
    list.lines().position(|line| is_fault(line.trim())).map(|place| place + 1)
}

/// The number of the first line of the rules of access that means a user, from 1 on.
fn rule_of(rules: &str, name: &str) -> Option<usize> {
    let means = |line: &str| {
        let words: Vec<&str> = line.split_ascii_whitespace().collect();
        let given = match words[..] {
            ["read" | "write" | "admin", _, ref given @ ..] | [_, "=", ref given @ ..] => given,
            _ => return false,
        };
        !line.trim_start().starts_with('#') && given.iter().any(|word| name_of(word).as_deref() == Some(name.as_bytes()))
    };
    rules.lines().position(means).map(|place| place + 1)
}

/// The text of a file; none where it isn't there.
fn text_of(file: &Path) -> Result<Option<String>, Ended> {
    match fs::read_to_string(file) {
        Ok(text) => Ok(Some(text)),
        Err(error) if error.kind() == ErrorKind::NotFound => Ok(None),
        Err(error) => Err(Ended::refused(file, error)),
    }
}

/// Makes a text the list, whole or not at all: it is for its owner alone, who is that of the list before, where that can be.
fn write(file: &Path, text: &str) -> io::Result<()> {
    let folder = file.parent().unwrap_or(Path::new("/"));
    let new = folder.join(NEW);
    let _ = fs::remove_file(&new);
    let made = write_new(&new, file, text).and_then(|()| fs::rename(&new, file));
    if made.is_err() {
        let _ = fs::remove_file(&new);
    }
    made?;
    File::open(folder)?.sync_all()
}

/// Writes a file that is to take the place of another.
fn write_new(new: &Path, file: &Path, text: &str) -> io::Result<()> {
    let mut written = OpenOptions::new().write(true).create_new(true).mode(0o600).open(new)?;
    if let Ok(before) = file.metadata() {
        let _ = fchown(&written, Some(before.uid()), Some(before.gid()));
    }
    written.write_all(text.as_bytes())?;
    written.sync_all()
}

/// What keeps a user from being taken away: a running server goes on with the lists that it has, where the new ones have a fault.
fn kept_by(folder: &Path, list: &str, name: &str) -> Result<Option<String>, Ended> {
    if !list.lines().any(|line| name_in(line).is_some_and(|other| other != name)) {
        return Ok(Some("is the last user, and a list of nobody is read by no server: add another one first, or end the server and remove the file".to_string()));
    }
    let access = folder.join("access");
    let rule = text_of(&access)?.and_then(|rules| rule_of(&rules, name));
    Ok(rule.map(|line| format!("is meant in {}, line {line}: take that out first", access.display())))
}

/// What is said of a list that is changed.
struct Change {
    text: String,
    said: &'static str,
}

/// The list with another password of a user, or without that user.
fn change_of(words: &Words, folder: &Path, list: &str) -> Result<Change, Ended> {
    let name = &words.other[..];
    let is_there = list.lines().any(|line| name_in(line) == Some(name));
    let refused = |why: String| Ended::Refused(format!("'{name}' {why}; nothing was changed"));
    if words.removes {
        if !is_there {
            return Err(refused("isn't a user".to_string()));
        }
        if let Some(why) = kept_by(folder, list, name)? {
            return Err(refused(why));
        }
        return Ok(Change { text: changed(list, name, None), said: "was taken away" });
    }
    let password = first_line(stdin())?;
    if let Some(why) = fault_of_password(&password) {
        return Err(refused(format!("can't have that password: {why}")));
    }
    let salt = salt().map_err(|error| Ended::refused(Path::new("/dev/urandom"), error))?;
    let line = format!("{name}:{}\n", secret_of(password.as_bytes(), &salt));
    Ok(Change { text: changed(list, name, Some(line)), said: if is_there { "has another password" } else { "was added" } })
}

/// Changes the list of a folder, which is made where it isn't there.
pub fn user(words: &Words) -> Result<bool, Ended> {
    let name = &words.other;
    if let Some(why) = fault_of_name(name).filter(|_| !words.removes) {
        return Err(Ended::Refused(format!("'{}' can't be a user's name: {why}; nothing was changed", name.escape_debug())));
    }
    let folder = PathBuf::from(&words.folder);
    if !words.removes {
        DirBuilder::new().recursive(true).mode(0o700).create(&folder).map_err(|error| Ended::refused(&folder, error))?;
    }
    let whole = File::open(&folder).and_then(|folder| folder.lock().map(|()| folder)); // one at a time
    let _whole = whole.map_err(|error| Ended::refused(&folder, error))?;
    let file = folder.join(USERS);
    let file = file.canonicalize().unwrap_or(file);
    let change = change_of(words, &folder, &text_of(&file)?.unwrap_or_default())?;
    if let Some(line) = fault_of_list(&change.text) {
        let why = "isn't name:secret, and no server reads a list with such a line: set it right first; nothing was changed";
        return Err(Ended::Refused(format!("line {line} of {} {why}", file.display())));
    }
    write(&file, &change.text).map_err(|error| Ended::refused(&file, error))?;
    say(&format!("{name} {} in {}\n", change.said, file.display()));
    Ok(true)
}

#[cfg(test)]
mod tests {
    use super::*;

    #[test]
    fn names() {
        for name in ["anna", "a b", "ä€", "\u{1f600}", "a#b", "a&<>\"'"] {
            assert_eq!(fault_of_name(name), None, "{name}");
        }
        for name in ["", "a:b", ":", "#a", " a", "a ", "\u{a0}a", "a\u{1}", "a\nb", "a\tb", "a\r", "a\0", "\u{7f}", "a\u{fffe}", "\u{ffff}a", "everybody", "users"] {
            assert!(fault_of_name(name).is_some(), "{name:?}");
        }
    }

    #[test]
    fn passwords() {
        for password in ["x", " ", "a:b", &"x".repeat(72), "pässwörd"] {
            assert_eq!(fault_of_password(password), None);
        }
        for password in ["", &"x".repeat(73), &"ä".repeat(37), "a\r", "a\0b", "\t"] {
            assert!(fault_of_password(password).is_some(), "{password:?}");
        }
        assert!(matches!(first_line(&b"one two\nthree\n"[..]), Ok(line) if line == "one two"));
        assert!(matches!(first_line(&b"no end"[..]), Ok(line) if line == "no end"));
        assert!(matches!(first_line(&b""[..]), Ok(line) if line.is_empty()));
        assert!(first_line(&b"\xff\n"[..]).is_err());
    }

    #[test]
    fn lists() {
        let line = || Some("anna:new\n".to_string());
        for (list, with, without) in [
            ("", "anna:new\n", ""),
            ("# users\n\nben:1", "# users\n\nben:1\nanna:new\n", "# users\n\nben:1\n"),
            ("anna:1\nben:1\n", "anna:new\nben:1\n", "ben:1\n"),
            (" anna:1\r\nben:1\nanna:2\n#anna:3\n", "anna:new\nben:1\n#anna:3\n", "ben:1\n#anna:3\n"),
            ("annab:1\nan:na:1\n", "annab:1\nan:na:1\nanna:new\n", "annab:1\nan:na:1\n"),
            ("ben:1\nanna:1", "ben:1\nanna:new\n", "ben:1\n"),
        ] {
            assert_eq!(changed(list, "anna", line()), with, "{list:?}");
            assert_eq!(changed(list, "anna", None), without, "{list:?}");
        }
    }

    #[test]
    fn faults() {
        let good = format!("# users\n\n anna:{}\r\nben:$5$rounds=1000$s${}\n", secret_of(b"x", "salt"), "a".repeat(43));
        assert_eq!(fault_of_list(&good), None);
        for line in ["carl", "carl:secret", ":$5$s$", "carl:$5$salt$short", "carl: $5$"] {
            assert_eq!(fault_of_list(&format!("{good}{line}\n")), Some(5), "{line}");
        }
    }

    #[test]
    fn rules() {
        for (rules, line) in [
            ("read / everybody\nwrite /anna ben anna\n", Some(2)),
            ("@staff = ben anna\n", Some(1)),
            ("read /x A%6Ena\nread /y %61nna", Some(2)),
            ("# read / anna\nread /anna users\nspace /anna 2g\n@anna = ben\n", None),
            ("", None),
        ] {
            assert_eq!(rule_of(rules, "anna"), line, "{rules}");
        }
    }
}
