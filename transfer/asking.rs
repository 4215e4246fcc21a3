//! Requests to one who answers them: the program that has a state, over pipes, or a server at an address.
use crate::http::{Response, head_of};
use std::io::{self, Read};

/// Why a request has no response.
pub enum AskError {
    /// What was to be sent can't be read; the request isn't run.
    Body(io::Error),
    /// The program has ended, or answered what is no HTTP.
    Ended,
    /// The server can't be reached, or answered what is no HTTP.
    Lost(io::Error),
}

impl From<io::Error> for AskError {
    fn from(_error: io::Error) -> AskError {
        AskError::Ended
    }
}

/// A request whose body is held.
pub struct Small {
    pub method: &'static str,
    pub path: String,
    /// Further fields, each with its end.
    pub fields: String,
    pub body: Vec<u8>,
}

impl Small {
    pub fn new(method: &'static str, path: &str, fields: &str, body: impl Into<Vec<u8>>) -> Small {
        Small { method, path: path.to_string(), fields: fields.to_string(), body: body.into() }
    }

    /// Its bytes, with the field of a login.
    pub fn written(&self, host: &str, login: &str) -> Vec<u8> {
        let mut text = head_of(host, self.method, &self.path, &format!("{login}{}", self.fields), self.body.len() as u64);
        text.extend_from_slice(&self.body);
        text
    }
}

pub trait Asks {
    /// Makes a request with a body of so many bytes, and gives the response. The body is read as far as it is asked for: a request may be
    /// refused by its head alone.
    fn ask(&mut self, method: &str, path: &str, fields: &str, body: &mut dyn Read, length: u64) -> Result<Response, AskError>;

    /// Makes requests of 64 KiB together without waiting in between, so that they share a sync of the disk. Their responses, in order: all of
    /// them, or those up to one after which the connection was closed, and then no later request was run.
    fn ask_all(&mut self, requests: &[Small]) -> Result<Vec<Response>, AskError>;
}
