//! crc32fast: CRC-32 (IEEE), bit by bit; and the call of the crate's root that is made of it.

/// The polynomial with its bits in reverse, as the least significant bit goes first.
const POLYNOMIAL: u32 = 0xedb8_8320;

pub struct Hasher {
    /// The complement of the sum so far.
    state: u32,
}

impl Default for Hasher {
    fn default() -> Self {
        Hasher { state: !0 }
    }
}

impl Hasher {
    pub fn new() -> Self {
        Hasher::default()
    }

    pub fn update(&mut self, bytes: &[u8]) {
        for &byte in bytes {
            self.state ^= u32::from(byte);
            for _ in 0..8 {
                let carry = self.state & 1;
                self.state = (self.state >> 1) ^ (POLYNOMIAL * carry);
            }
        }
    }

    pub fn finalize(self) -> u32 {
        !self.state
    }
}

pub fn checksum_ieee(data: &[u8]) -> u32 {
    let mut sum = Hasher::new();
    sum.update(data);
    sum.finalize()
}
