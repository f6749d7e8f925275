//! Bits, the high one of a byte first.

#[derive(Default)]
pub struct BitWriter {
    bytes: Vec<u8>,
    /// Bits of the last byte that are not written yet.
    open: u32,
}

impl BitWriter {
    /// The number of bits written.
    pub fn place(&self) -> usize {
        8 * self.bytes.len() - self.open as usize
    }

    /// Writes the low `width` bits.
    pub fn put(&mut self, value: u32, width: u32) {
        for k in (0..width).rev() {
            if self.open == 0 {
                self.bytes.push(0);
                self.open = 8;
            }
            self.open -= 1;
            if let Some(byte) = self.bytes.last_mut() {
                *byte |= ((value >> k & 1) as u8) << self.open;
            }
        }
    }

    /// Fills the last byte up with the bits of `free` that have their places.
    pub fn align(&mut self, free: u8) {
        self.put(free.into(), self.open);
    }

    pub fn into_bytes(self) -> Vec<u8> {
        self.bytes
    }
}

/// The 32 bits at a place.
pub fn read_word(bytes: &[u8], place: usize) -> u32 {
    (place..place + 32).fold(0, |word, bit| {
        word << 1 | u32::from(bytes[bit / 8] >> (7 - bit % 8) & 1)
    })
}

/// Puts 32 bits over those at a place.
pub fn overwrite(bytes: &mut [u8], place: usize, word: u32) {
    for k in 0..32 {
        let bit = place + k;
        let mask = 0x80 >> (bit % 8);
        if word >> (31 - k) & 1 == 1 {
            bytes[bit / 8] |= mask;
        } else {
            bytes[bit / 8] &= !mask;
        }
    }
}
