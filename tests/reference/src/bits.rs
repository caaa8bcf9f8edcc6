//! Bits packed most significant bit first, written and read.

/// The writer's limit was reached: nothing more can be written.
#[derive(Clone, Copy, Debug, PartialEq, Eq)]
pub struct Full;

/// Writes numbers most significant bit first into bytes.
pub struct BitWriter {
    bytes: Vec<u8>,
    /// The last `held` bits written, not yet in `bytes`.
    pending: u64,
    /// How many bits are pending; below 32 between calls.
    held: u32,
    /// Bits written so far.
    used: u64,
    /// Bits that may be written in all.
    limit: u64,
}

impl BitWriter {
    /// A writer that holds at most `limit` bytes.
    pub fn with_limit(limit: u64) -> BitWriter {
        BitWriter {
            bytes: Vec::new(),
            pending: 0,
            held: 0,
            used: 0,
            limit: limit.saturating_mul(8),
        }
    }

    /// Counts the bits about to be written against the limit.
    fn claim(&mut self, bits: u64) -> Result<(), Full> {
        if bits > self.limit - self.used {
            return Err(Full);
        }
        self.used += bits;
        Ok(())
    }

    /// Writes the low `width` bits of `value`; `value` has no others set.
    /// The width is 0 to 64.
    pub fn put(&mut self, value: u64, width: u32) -> Result<(), Full> {
        if width > 32 {
            self.put(value >> 32, width - 32)?;
            return self.put(value & 0xFFFF_FFFF, 32);
        }
        self.claim(u64::from(width))?;
        self.pending = (self.pending << width) | value;
        self.held += width;
        if self.held >= 32 {
            self.held -= 32;
            let whole = (self.pending >> self.held) as u32;
            self.bytes.extend_from_slice(&whole.to_be_bytes());
        }
        Ok(())
    }

    /// Moves the whole pending bytes out, so that fewer than 8 bits are held.
    fn settle(&mut self) {
        while self.held >= 8 {
            self.held -= 8;
            self.bytes.push((self.pending >> self.held) as u8);
        }
    }

    /// Writes whole bytes, each most significant bit first.
    pub fn put_bytes(&mut self, bytes: &[u8]) -> Result<(), Full> {
        self.claim(bytes.len() as u64 * 8)?;
        self.settle();
        if self.held == 0 {
            self.bytes.extend_from_slice(bytes);
            return Ok(());
        }
        let held = self.held;
        let mut before = self.pending as u8;
        self.bytes.extend(bytes.iter().map(|&byte| {
            let joined = (before << (8 - held)) | (byte >> held);
            before = byte;
            joined
        }));
        self.pending = u64::from(before);
        Ok(())
    }

    /// The bytes written, with zero bits to the byte end.
    pub fn finish(mut self) -> Vec<u8> {
        self.settle();
        if self.held > 0 {
            self.bytes.push((self.pending << (8 - self.held)) as u8);
        }
        self.bytes
    }
}

/// Reads numbers most significant bit first from bytes.
#[derive(Clone)]
pub struct BitReader<'a> {
    bytes: &'a [u8],
    /// The next bit to be read, counted from the first byte's highest.
    at: u64,
}

impl<'a> BitReader<'a> {
    pub fn new(bytes: &'a [u8]) -> BitReader<'a> {
        BitReader { bytes, at: 0 }
    }

    /// The bits not yet read.
    fn rest(&self) -> u64 {
        self.bytes.len() as u64 * 8 - self.at
    }

    /// Passes over bits; none where fewer are left.
    pub fn skip(&mut self, bits: u64) -> Option<()> {
        if bits > self.rest() {
            return None;
        }
        self.at += bits;
        Some(())
    }

    /// Reads a number of 1 to 64 bits; none where fewer are left.
    pub fn take(&mut self, width: u32) -> Option<u64> {
        let first = (self.at / 8) as usize;
        let before = (self.at % 8) as u32;
        self.skip(u64::from(width))?;
        if before + width <= 64 {
            if let Some(window) = self.bytes.get(first..first + 8) {
                let mut whole = [0; 8];
                whole.copy_from_slice(window);
                return Some((u64::from_be_bytes(whole) << before) >> (64 - width));
            }
        }
        let last = self.at.div_ceil(8) as usize;
        let joined = self.bytes[first..last]
            .iter()
            .fold(0u128, |sum, &byte| (sum << 8) | u128::from(byte));
        let after = (8 - (self.at % 8) as u32) % 8;
        let mask = u64::MAX >> (64 - width);
        Some((joined >> after) as u64 & mask)
    }

    /// Reads as many bytes as `into` holds; none where fewer are left.
    pub fn take_bytes(&mut self, into: &mut [u8]) -> Option<()> {
        let first = (self.at / 8) as usize;
        let before = (self.at % 8) as u32;
        self.skip(into.len() as u64 * 8)?;
        if before == 0 {
            into.copy_from_slice(&self.bytes[first..first + into.len()]);
            return Some(());
        }
        if into.is_empty() {
            return Some(());
        }
        let from = &self.bytes[first..first + into.len() + 1];
        for (byte, pair) in into.iter_mut().zip(from.windows(2)) {
            *byte = (pair[0] << before) | (pair[1] >> (8 - before));
        }
        Some(())
    }

    /// Reads so many bytes; none where fewer are left.
    pub fn take_vec(&mut self, count: u64) -> Option<Vec<u8>> {
        if count > self.rest() / 8 {
            return None;
        }
        let mut bytes = vec![0; count as usize];
        self.take_bytes(&mut bytes)?;
        Some(bytes)
    }

    /// "then zero bits to the byte end, nothing more"
    pub fn is_finished(&self) -> bool {
        match self.rest() {
            0 => true,
            rest @ 1..=7 => self.clone().take(rest as u32) == Some(0),
            _ => false,
        }
    }
}

#[cfg(test)]
mod tests {
    use super::{BitReader, BitWriter, Full};

    #[test]
    fn numbers_come_back_at_every_width_and_shift() {
        for shift in 0..40 {
            for width in 1..=64u32 {
                let value = 0xA5C3_96E1_5A3C_69F7u64 >> (64 - width);
                let mut writer = BitWriter::with_limit(100);
                for _ in 0..shift {
                    writer.put(1, 1).unwrap();
                }
                writer.put(value, width).unwrap();
                writer.put(1, 1).unwrap();
                let bytes = writer.finish();
                let mut reader = BitReader::new(&bytes);
                for _ in 0..shift {
                    assert_eq!(reader.take(1), Some(1));
                }
                assert_eq!(reader.take(width), Some(value));
                assert_eq!(reader.take(1), Some(1));
                assert!(reader.is_finished());
            }
        }
    }

    #[test]
    fn bytes_come_back_at_every_shift() {
        let text: Vec<u8> = (0..50u8).map(|n| n.wrapping_mul(37) ^ 0x5A).collect();
        for shift in 0..40u32 {
            for length in 0..text.len() {
                let mut writer = BitWriter::with_limit(100);
                for _ in 0..shift {
                    writer.put(1, 1).unwrap();
                }
                writer.put_bytes(&text[..length]).unwrap();
                writer.put(5, 3).unwrap();
                let bytes = writer.finish();
                let mut reader = BitReader::new(&bytes);
                reader.skip(u64::from(shift)).unwrap();
                let more = bytes.len() as u64 + 1;
                assert_eq!(reader.clone().take_vec(more), None);
                let back = reader.clone().take_vec(length as u64);
                assert_eq!(back.as_deref(), Some(&text[..length]));
                let mut back = vec![0; length];
                reader.take_bytes(&mut back).unwrap();
                assert_eq!(back, &text[..length]);
                assert_eq!(reader.take(3), Some(5));
                assert!(reader.is_finished());
            }
        }
    }

    #[test]
    fn the_limit_is_in_whole_bytes() {
        let mut writer = BitWriter::with_limit(2);
        writer.put(1, 15).unwrap();
        assert_eq!(writer.put(1, 2), Err(Full));
        assert_eq!(writer.put_bytes(&[1]), Err(Full));
        writer.put(1, 1).unwrap();
        assert_eq!(writer.finish(), [0, 3]);
    }

    #[test]
    fn the_end_is_zero_bits_and_nothing_more() {
        let mut reader = BitReader::new(&[0x80, 0x00]);
        assert_eq!(reader.take(8), Some(0x80));
        assert!(!reader.is_finished());
        assert_eq!(reader.take(1), Some(0));
        assert!(reader.is_finished());
        assert_eq!(reader.take(8), None);
        let mut reader = BitReader::new(&[0x81]);
        assert_eq!(reader.take(1), Some(1));
        assert!(!reader.is_finished());
    }
}
