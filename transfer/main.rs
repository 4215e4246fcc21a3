//! Files in and out of a state, and what a state has: `vuldarg import`, `export`, `check`, `copy` and `cut` (docs/SERVE.md, "In and out"); and the
//! users who may come in: `vuldarg user`.
//!
//! What is asked of files is asked of the very program that serves the state, by requests over pipes: an import of the state itself, an export
//! and a check of a private copy. So what a file is, and which state is damaged, is said in one place. A copy alone reads blocks by itself.
#![forbid(unsafe_code)]

mod answers;
mod asking;
mod check;
mod client;
mod copy;
mod core;
mod crypt;
mod digest;
mod export;
mod http;
mod import;
mod json;
mod listing;
mod making;
mod moved;
mod progress;
mod sha;
mod state;
mod user;
mod workers;
mod xml;

use crate::core::{Core, Start};
use std::fmt::Display;
use std::io::{Write, stdout};
use std::path::Path;
use std::process::exit;

/// Why nothing more is done.
pub enum Ended {
    /// It can't be done, for this reason.
    Refused(String),
    /// The program ended with this status, and said why.
    Program(i32),
}

impl Ended {
    pub fn refused(what: &Path, why: impl Display) -> Ended {
        Ended::Refused(format!("{}: {why}", what.display()))
    }

    /// The end of a program that was still to answer, so 0 is none of its statuses.
    pub fn of(status: i32) -> Ended {
        Ended::Program(if status == 0 { 2 } else { status })
    }
}

/// What is asked for.
#[derive(Default)]
pub struct Words {
    /// The program that has the state, and the folder of the state.
    pub program: String,
    pub folder: String,
    /// An empty folder for a copy of the state, where one is made.
    pub room: String,
    /// The folder of plain files, if it takes one, or the name of a user.
    pub other: String,
    /// The one first folder that is meant, if not all are.
    pub only: Option<String>,
    /// The URL of a server that takes it, and a file with a login there.
    pub to: Option<String>,
    pub login: Option<String>,
    /// Whether an import goes on with what an earlier one left, and whether an export leaves locks out.
    pub again: bool,
    pub without_locks: bool,
    /// Whether a user is taken away.
    pub removes: bool,
    /// The prefix, with its segments as in a URL.
    prefix: String,
    /// The options of the program.
    pub options: Vec<String>,
}

impl Words {
    /// The path of the folder at the top.
    pub fn top(&self) -> String {
        format!("{}/", self.prefix)
    }

    /// The path of a first folder.
    pub fn folder_of(&self, name: &str) -> String {
        format!("{}/{}", self.prefix, http::segment_of(name.as_ref()))
    }
}

/// Says something on standard output. Where nobody reads it, nobody can be told so.
pub fn say(text: &str) {
    let _ = stdout().write_all(text.as_bytes());
}

fn usage() -> ! {
    eprintln!("usage: transfer import|export|check|copy|user PROGRAM FOLDER ROOM [OTHER] [--prefix /PATH] [--body BYTES] [--at SECONDS] [--rate BYTES]");
    eprintln!("       [--only NAME] [--to URL] [--login FILE] [--again yes] [--without-locks yes] [--remove yes]");
    exit(1)
}

/// Copies the state to the room, with these other files, and starts the program over the copy, which may be only to be read.
fn begin_copy(words: &Words, others: &[&str], is_read: bool) -> Result<Core, Ended> {
    let (folder, room) = (Path::new(&words.folder), Path::new(&words.room));
    let others = [&["state.begun"], others].concat();
    match state::copy(folder, room, &others) {
        Ok(true) => {}
        Ok(false) => return Err(Ended::Refused(format!("{} has no state", folder.display()))),
        Err(error) => return Err(Ended::refused(folder, error)),
    }
    let mut options = words.options.clone();
    options.extend(["--snapshot-past".to_string(), u64::MAX.to_string()]);
    if is_read {
        options.push("--read-only".to_string());
    }
    let start = Start { program: &words.program, folder: &words.room, options: &options, said_of: &words.folder, as_owner: false, own_login: true };
    Core::start(&start).map_err(|error| Ended::refused(Path::new(&words.program), error))
}

fn read_words(mut words: impl Iterator<Item = String>) -> (String, Words) {
    let mut next = || words.next().unwrap_or_else(|| usage());
    let command = next();
    let mut told = Words { program: next(), folder: next(), room: next(), ..Words::default() };
    if command != "check" {
        told.other = next();
    }
    while let Some(name) = words.next() {
        let value = words.next().unwrap_or_else(|| usage());
        match name.as_str() {
            "--only" => told.only = Some(value),
            "--to" => told.to = Some(value),
            "--login" => told.login = Some(value),
            "--again" => told.again = true,
            "--without-locks" => told.without_locks = true,
            "--remove" => told.removes = true,
            _ => {
                if name == "--prefix" {
                    let segments = value.split('/').filter(|segment| !segment.is_empty());
                    told.prefix = segments.map(|segment| format!("/{}", http::segment_of(segment.as_ref()))).collect();
                }
                told.options.extend([name, value]);
            }
        }
    }
    (command, told)
}

/// The words of the command line, which are texts.
fn told_words() -> impl Iterator<Item = String> {
    std::env::args_os().skip(1).map(|word| {
        word.into_string().unwrap_or_else(|word| {
            eprintln!("vuldarg: {word:?} isn't UTF-8");
            exit(1)
        })
    })
}

fn main() {
    let (command, words) = read_words(told_words());
    let done = match command.as_str() {
        "import" if words.only.is_some() => import::import_moved(&words),
        "import" => import::import(&words),
        "export" => export::export(&words),
        "check" => check::check(&words),
        "copy" => copy::copy(&words),
        "user" => user::user(&words),
        _ => usage(),
    };
    let status = match done {
        Ok(true) => 0,
        Ok(false) => 1,
        Err(Ended::Program(status)) => status,
        Err(Ended::Refused(why)) => {
            eprintln!("vuldarg: {why}");
            1
        }
    };
    exit(status)
}
