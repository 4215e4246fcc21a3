//! Bytes that clients haven't taken yet: they are in blocks, of which all connections together have no more than there are.
use std::cell::Cell;
use std::collections::VecDeque;
use std::io::{self, IoSlice, Write};
use std::rc::Rc;

/// The bytes of a block.
pub const BLOCK: usize = 16_384;

/// So many blocks an order takes at most, which has 256 KiB and may begin and end within one.
const ORDER: usize = 262_144 / BLOCK + 1;

/// So many blocks are written at once.
const AT_ONCE: usize = 20;

/// The blocks of all connections.
#[derive(Clone)]
pub struct Blocks {
    taken: Rc<Cell<usize>>,
    most: usize,
}

impl Blocks {
    /// As many as so many bytes are, and no fewer than an order takes.
    pub fn new(bytes: usize) -> Blocks {
        Blocks { taken: Rc::new(Cell::new(0)), most: (bytes / BLOCK).max(ORDER) }
    }

    /// Whether there is room for one more order besides so many.
    pub fn has_room(&self, owed: u64) -> bool {
        self.taken.get() + ORDER * (owed as usize + 1) <= self.most
    }

    /// Whether half of them are free.
    pub fn is_half_free(&self) -> bool {
        2 * self.taken.get() <= self.most
    }

    /// How many have to be given back so that an eighth is free.
    pub fn wanted(&self) -> usize {
        (self.taken.get() + self.most / 8).saturating_sub(self.most)
    }
}

/// The bytes that one client hasn't taken yet.
pub struct Unsent {
    all: Blocks,
    own: VecDeque<Vec<u8>>,
    /// How many bytes of the first block were sent, and how many of all weren't.
    sent: usize,
    left: usize,
}

impl Unsent {
    pub fn new(all: &Blocks) -> Unsent {
        Unsent { all: all.clone(), own: VecDeque::new(), sent: 0, left: 0 }
    }

    /// How many bytes they are.
    pub fn len(&self) -> usize {
        self.left
    }

    pub fn is_empty(&self) -> bool {
        self.left == 0
    }

    /// How many blocks they take.
    pub fn blocks(&self) -> usize {
        self.own.len()
    }

    pub fn push(&mut self, mut bytes: &[u8]) {
        self.left += bytes.len();
        while !bytes.is_empty() {
            let free = self.own.back().map_or(0, |block| BLOCK - block.len());
            let (now, later) = bytes.split_at(if free == 0 { BLOCK.min(bytes.len()) } else { free.min(bytes.len()) });
            if free == 0 {
                self.own.push_back(Vec::with_capacity(BLOCK));
                self.all.taken.set(self.all.taken.get() + 1);
            }
            self.own.back_mut().expect("a block was added").extend_from_slice(now);
            bytes = later;
        }
    }

    /// Writes once; the count of bytes that were taken, and whether all were that were given.
    pub fn write_to(&mut self, mut socket: impl Write) -> io::Result<(usize, bool)> {
        let mut slices = [IoSlice::new(&[]); AT_ONCE];
        let mut given = 0;
        for (at, block) in self.own.iter().take(AT_ONCE).enumerate() {
            let rest = &block[if at == 0 { self.sent } else { 0 }..];
            slices[at] = IoSlice::new(rest);
            given += rest.len();
        }
        let count = socket.write_vectored(&slices[..self.own.len().min(AT_ONCE)])?;
        self.drop_sent(count);
        Ok((count, count == given))
    }

    fn drop_sent(&mut self, count: usize) {
        (self.sent, self.left) = (self.sent + count, self.left - count);
        while let Some(first) = self.own.front()
            && self.sent >= first.len()
        {
            self.sent -= first.len();
            self.own.pop_front();
            self.all.taken.set(self.all.taken.get() - 1);
        }
    }

    pub fn clear(&mut self) {
        self.all.taken.set(self.all.taken.get() - self.own.len());
        self.own.clear();
        (self.sent, self.left) = (0, 0);
    }
}

impl Drop for Unsent {
    fn drop(&mut self) {
        self.clear();
    }
}
