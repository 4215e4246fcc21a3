//! What a client is waited for, and for how long.
use crate::reports::PIECE;
use std::time::Duration;

/// The time that a client has for the head of a request.
pub const HEAD_TIME: Duration = Duration::from_secs(10);

/// What the core may order to be read: where nothing of a request came, a part of a head, or a head whose body isn't whole.
pub const READ: u8 = 1;
const READ_BODY: u8 = 4;

/// The times that clients have.
#[derive(Clone, Copy)]
pub struct Times {
    /// Between two requests.
    pub idle: Duration,
    /// For each piece of a body or of a reply.
    pub piece: Duration,
}

/// What the client is waited for: a request, the rest of a head, or a piece of a body, of which so many bytes came in so long a time.
pub struct Coming {
    pub what: u8,
    bytes: usize,
    waited: Duration,
}

impl Coming {
    pub fn new(what: u8) -> Coming {
        Coming { what, bytes: 0, waited: Duration::ZERO }
    }

    /// Whether nothing of a request came.
    pub fn is_new(&self) -> bool {
        self.what == READ && self.bytes == 0
    }

    /// How long the client may still be waited for.
    pub fn left(&self, times: Times) -> Duration {
        let time = match self.what {
            READ => times.idle,
            READ_BODY => times.piece,
            _ => HEAD_TIME,
        };
        time.saturating_sub(self.waited)
    }

    /// The client was waited for so long.
    pub fn wait(&mut self, waited: Duration) {
        self.waited += waited;
    }

    /// So many bytes came.
    pub fn add(&mut self, bytes: usize) {
        self.bytes += bytes;
        if self.what == READ_BODY && self.bytes >= PIECE {
            *self = Coming::new(READ_BODY);
        }
    }
}
