//! Bytes to lend, with guard bytes on both sides.

const GUARD: [u8; 64] = [0xa5; 64];

pub struct Lent {
    all: Vec<u8>,
}

impl Lent {
    pub fn new(bytes: &[u8]) -> Lent {
        Lent {
            all: [&GUARD, bytes, &GUARD].concat(),
        }
    }

    pub fn bytes(&self) -> &[u8] {
        &self.all[GUARD.len()..self.all.len() - GUARD.len()]
    }

    pub fn bytes_mut(&mut self) -> &mut [u8] {
        let end = self.all.len() - GUARD.len();
        &mut self.all[GUARD.len()..end]
    }

    /// Whether the bytes are these and the guards are whole.
    pub fn is(&self, bytes: &[u8]) -> bool {
        let end = self.all.len() - GUARD.len();
        self.all[..GUARD.len()] == GUARD && self.all[end..] == GUARD && self.bytes() == bytes
    }
}
