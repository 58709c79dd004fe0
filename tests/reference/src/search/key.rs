//! A state as the bytes that its `Hash` writes, zeros left out: equal bytes are equal states, since
//! every table writes its length and every choice its number first.

use std::hash::{Hash, Hasher};

#[derive(Default)]
struct Bytes(Vec<u8>);

impl Hasher for Bytes {
    /// Eight bytes at a time: which of them are not zero, and those.
    fn write(&mut self, bytes: &[u8]) {
        for piece in bytes.chunks(8) {
            let at = self.0.len();
            self.0.push(0);
            for (bit, &byte) in piece.iter().enumerate().filter(|(_, &byte)| byte != 0) {
                self.0[at] |= 1 << bit;
                self.0.push(byte);
            }
        }
    }

    fn finish(&self) -> u64 {
        unreachable!("the bytes are the key")
    }
}

pub(super) fn of(state: &impl Hash) -> Box<[u8]> {
    let mut bytes = Bytes::default();
    state.hash(&mut bytes);
    bytes.0.into_boxed_slice()
}
