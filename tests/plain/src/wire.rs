//! Numbers and headers as they stand in a message, in either coding.

/// "magic 0xB5C0C4B3".
pub const MESSAGE_MAGIC: u32 = 0xB5C0_C4B3;
pub const TEXT_MAGIC: u32 = 0xD812_C8F5;
pub const BYTES_MAGIC: u32 = 0xDCDB_BE10;
pub const LIST_MAGIC: u32 = 0x3400_BB46;
pub const DIRECT_MAGIC: u32 = 0xE2C6_CC05;

/// A coding, chosen once for a walk, so that every width is a constant in it.
pub trait Coding {
    /// The bytes of an offset or a length.
    const WIDTH: usize;
    /// The bytes of the message's start, and of the header of an object: a magic and a length.
    const HEADER: usize = 4 + Self::WIDTH;
    /// The bytes of a union: a choice and an offset or a length.
    const UNION: usize = 2 + Self::WIDTH;

    /// The offset or length with which the bytes start.
    fn number(bytes: &[u8]) -> Option<usize>;

    /// The magic and the length with which the bytes start.
    fn header(bytes: &[u8]) -> Option<(u32, usize)>;
}

// Offsets and lengths are held as they are read.
const _: () = assert!(usize::BITS >= 64);

/// The coding of document 000.
pub struct Bits48;

impl Coding for Bits48 {
    const WIDTH: usize = 6;

    #[inline(always)]
    fn number(bytes: &[u8]) -> Option<usize> {
        let &[a, b, c, d, e, f] = bytes.first_chunk()?;
        Some(joined(
            u32::from_le_bytes([a, b, c, d]),
            u16::from_le_bytes([e, f]),
        ))
    }

    #[inline(always)]
    fn header(bytes: &[u8]) -> Option<(u32, usize)> {
        let &[a, b, c, d, e, f, g, h, i, j] = bytes.first_chunk()?;
        let word = u64::from_le_bytes([a, b, c, d, e, f, g, h]);
        let length = joined((word >> 32) as u32, u16::from_le_bytes([i, j]));
        Some((word as u32, length))
    }
}

/// A U48 of its two parts.
#[inline(always)]
fn joined(low: u32, high: u16) -> usize {
    low as usize | usize::from(high) << 32
}

/// The older coding of document 002.
pub struct Bits32;

impl Coding for Bits32 {
    const WIDTH: usize = 4;

    #[inline(always)]
    fn number(bytes: &[u8]) -> Option<usize> {
        u32_at(bytes).map(|number| number as usize)
    }

    #[inline(always)]
    fn header(bytes: &[u8]) -> Option<(u32, usize)> {
        let word = u64::from_le_bytes(*bytes.first_chunk()?);
        Some((word as u32, (word >> 32) as usize))
    }
}

/// The U16 with which the bytes start.
#[inline(always)]
pub fn u16_at(bytes: &[u8]) -> Option<u16> {
    bytes.first_chunk().map(|bytes| u16::from_le_bytes(*bytes))
}

/// The U32 with which the bytes start.
#[inline(always)]
pub fn u32_at(bytes: &[u8]) -> Option<u32> {
    bytes.first_chunk().map(|bytes| u32::from_le_bytes(*bytes))
}

/// The magic and the length of the object at a place. "An offset under 10 is not lawful where an
/// object is required."
#[inline(always)]
pub fn header_at<C: Coding>(message: &[u8], place: usize) -> Option<(u32, usize)> {
    if place < C::HEADER {
        return None;
    }
    message.get(place..place + C::HEADER).and_then(C::header)
}
