//! Bits packed most significant first, as value sheets have them.

/// Collects bits into bytes.
#[derive(Default)]
pub struct BitWriter {
    bytes: Vec<u8>,
    used: usize,
}

impl BitWriter {
    /// How many bits stand so far.
    pub fn position(&self) -> usize {
        self.used
    }

    /// Adds the lowest `width` bits of `value`, the highest of them first.
    pub fn put(&mut self, value: u64, width: usize) {
        let mut left = width;
        while left > 0 {
            let free = 8 - self.used % 8;
            if free == 8 {
                self.bytes.push(0);
            }
            let take = free.min(left);
            let part = (value >> (left - take)) & ((1 << take) - 1);
            let last = self.bytes.len() - 1;
            self.bytes[last] |= (part as u8) << (free - take);
            self.used += take;
            left -= take;
        }
    }

    /// Adds whole bytes at the present bit.
    pub fn put_bytes(&mut self, bytes: &[u8]) {
        if self.used.is_multiple_of(8) {
            self.bytes.extend_from_slice(bytes);
            self.used += 8 * bytes.len();
        } else {
            for byte in bytes {
                self.put(u64::from(*byte), 8);
            }
        }
    }

    /// The bytes, the last one filled up with zero bits.
    pub fn finish(self) -> Vec<u8> {
        self.bytes
    }
}

/// Takes bits from bytes.
pub struct BitReader<'a> {
    bytes: &'a [u8],
    at: usize,
}

impl<'a> BitReader<'a> {
    /// Starts at the first bit.
    pub fn new(bytes: &'a [u8]) -> BitReader<'a> {
        BitReader { bytes, at: 0 }
    }

    /// How many bits are left.
    pub fn left(&self) -> usize {
        8 * self.bytes.len() - self.at
    }

    /// The next `width` bits as a number, if there are so many.
    pub fn take(&mut self, width: usize) -> Option<u64> {
        if self.left() < width {
            return None;
        }
        let mut value = 0;
        let mut need = width;
        while need > 0 {
            let free = 8 - self.at % 8;
            let take = free.min(need);
            let byte = u64::from(self.bytes[self.at / 8]);
            let part = (byte >> (free - take)) & ((1 << take) - 1);
            value = (value << take) | part;
            self.at += take;
            need -= take;
        }
        Some(value)
    }

    /// The next `count` bytes.
    pub fn take_bytes(&mut self, count: usize) -> Option<Vec<u8>> {
        if self.left() / 8 < count {
            return None;
        }
        (0..count)
            .map(|_| self.take(8).map(|byte| byte as u8))
            .collect()
    }
}

/// Replaces `width` bits of `bytes` from bit `at` on.
pub fn overwrite(bytes: &mut [u8], at: usize, width: usize, value: u64) {
    for i in 0..width {
        let bit = (value >> (width - 1 - i)) & 1;
        let (byte, mask) = ((at + i) / 8, 0x80u8 >> ((at + i) % 8));
        if bit == 1 {
            bytes[byte] |= mask;
        } else {
            bytes[byte] &= !mask;
        }
    }
}
