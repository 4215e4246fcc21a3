//! The digests of a state's blocks: SipHash of one and three rounds, of a key and bytes. They find damage, and keep nobody out.

/// A digest of what came so far.
pub struct Digest {
    state: [u64; 4],
    /// The bytes that don't fill a word yet, and how many there are.
    rest: [u8; 8],
    filled: usize,
    length: u64,
}

impl Digest {
    pub fn new(key: u64) -> Digest {
        let state = [0x736f_6d65_7073_6575, 0x646f_7261_6e64_6f6d, 0x6c79_6765_6e65_7261, 0x7465_6462_7974_6573];
        let mut digest = Digest { state, rest: [0; 8], filled: 0, length: 0 };
        digest.add(&key.to_le_bytes());
        digest
    }

    /// More bytes come.
    pub fn add(&mut self, mut bytes: &[u8]) {
        self.length = self.length.wrapping_add(bytes.len() as u64);
        if self.filled > 0 {
            let count = bytes.len().min(8 - self.filled);
            self.rest[self.filled..self.filled + count].copy_from_slice(&bytes[..count]);
            self.filled += count;
            bytes = &bytes[count..];
            if self.filled < 8 {
                return;
            }
            self.word(u64::from_le_bytes(self.rest));
        }
        let (words, rest) = bytes.as_chunks::<8>();
        for word in words {
            self.word(u64::from_le_bytes(*word));
        }
        self.rest[..rest.len()].copy_from_slice(rest);
        self.filled = rest.len();
    }

    /// The digest of all that came; none is 0.
    pub fn end(mut self) -> u64 {
        self.rest[self.filled..].fill(0);
        self.word(u64::from_le_bytes(self.rest) | self.length << 56);
        self.state[2] ^= 255;
        self.rounds(3);
        self.state.into_iter().fold(0, |all, word| all ^ word).max(1)
    }

    fn word(&mut self, word: u64) {
        self.state[3] ^= word;
        self.rounds(1);
        self.state[0] ^= word;
    }

    fn rounds(&mut self, count: usize) {
        let [mut a, mut b, mut c, mut d] = self.state;
        for _ in 0..count {
            (a, c) = (a.wrapping_add(b), c.wrapping_add(d));
            (b, d) = (b.rotate_left(13) ^ a, d.rotate_left(16) ^ c);
            a = a.rotate_left(32);
            (c, a) = (c.wrapping_add(b), a.wrapping_add(d));
            (b, d) = (b.rotate_left(17) ^ c, d.rotate_left(21) ^ a);
            c = c.rotate_left(32);
        }
        self.state = [a, b, c, d];
    }
}

#[cfg(test)]
mod tests {
    use super::*;

    #[test]
    fn in_any_pieces() {
        let bytes: Vec<u8> = (0..100).collect();
        for count in 0..bytes.len() {
            let mut whole = Digest::new(7);
            whole.add(&bytes[..count]);
            let whole = whole.end();
            for piece in 1..20 {
                let mut parts = Digest::new(7);
                bytes[..count].chunks(piece).for_each(|part| parts.add(part));
                assert_eq!(parts.end(), whole);
            }
        }
    }
}
