//! A message, built from its first byte to its last.

use scalgo::Coding;

const MESSAGE_MAGIC: u32 = 0xB5C0_C4B3;
const TEXT_MAGIC: u32 = 0xD812_C8F5;
pub const BYTES_MAGIC: u32 = 0xDCDB_BE10;
pub const LIST_MAGIC: u32 = 0x3400_BB46;
const DIRECT_MAGIC: u32 = 0xE2C6_CC05;

pub struct Message {
    coding: Coding,
    bytes: Vec<u8>,
}

impl Message {
    /// A message whose root comes first, behind a magic and an offset.
    pub fn new(coding: Coding) -> Message {
        let mut message = Message::of(coding, &[]);
        message.header(MESSAGE_MAGIC, 4 + message.width());
        message
    }

    /// A message of these bytes.
    pub fn of(coding: Coding, bytes: &[u8]) -> Message {
        Message {
            coding,
            bytes: bytes.to_vec(),
        }
    }

    pub fn coding(&self) -> Coding {
        self.coding
    }

    /// The bytes of an offset or a length.
    pub fn width(&self) -> usize {
        self.coding.number() as usize / 8
    }

    /// Where the next byte goes.
    pub fn end(&self) -> usize {
        self.bytes.len()
    }

    pub fn finish(self) -> Vec<u8> {
        self.bytes
    }

    pub fn put(&mut self, bytes: &[u8]) {
        self.bytes.extend_from_slice(bytes);
    }

    pub fn zeros(&mut self, count: usize) {
        self.bytes.resize(self.bytes.len() + count, 0);
    }

    pub fn u16(&mut self, value: u16) {
        self.put(&value.to_le_bytes());
    }

    /// An offset or a length.
    pub fn offset(&mut self, value: usize) {
        let (bytes, width) = (value.to_le_bytes(), self.width());
        self.put(&bytes[..width]);
    }

    /// Writes over zero bytes put earlier.
    pub fn set_u16(&mut self, at: usize, value: u16) {
        self.bytes[at..at + 2].copy_from_slice(&value.to_le_bytes());
    }

    /// Writes over zero bytes put earlier.
    pub fn set_offset(&mut self, at: usize, value: usize) {
        let width = self.width();
        self.bytes[at..at + width].copy_from_slice(&value.to_le_bytes()[..width]);
    }

    /// A reference to what comes right behind it.
    pub fn refer_behind(&mut self) {
        self.offset(self.end() + self.width());
    }

    pub fn header(&mut self, magic: u32, length: usize) {
        self.put(&magic.to_le_bytes());
        self.offset(length);
    }

    /// The header of a direct list: its elements' number, table id and size.
    pub fn direct_header(&mut self, count: usize, id: u32, size: usize) {
        self.header(DIRECT_MAGIC, count);
        self.put(&id.to_le_bytes());
        self.put(&(size as u32).to_le_bytes());
    }

    pub fn text(&mut self, content: &[u8]) {
        self.header(TEXT_MAGIC, content.len());
        self.put(content);
        self.zeros(1);
    }
}

/// A table's fixed part as it grows.
#[derive(Default)]
pub struct Fixed {
    pub bytes: Vec<u8>,
    /// The bits used of the last bool byte, and where it stands.
    last: Option<(usize, u32)>,
}

impl Fixed {
    /// "A bool takes the next free bit, lowest first, of the last bool byte; if none is free a
    /// zeroed byte is appended."
    pub fn boolean(&mut self, value: bool) {
        let (byte, bit) = match self.last {
            Some((byte, used)) if used < 8 => (byte, used),
            _ => {
                self.bytes.push(0);
                (self.bytes.len() - 1, 0)
            }
        };
        self.bytes[byte] |= u8::from(value) << bit;
        self.last = Some((byte, bit + 1));
    }

    /// Puts bytes and answers where they stand.
    pub fn put(&mut self, bytes: &[u8]) -> usize {
        let at = self.bytes.len();
        self.bytes.extend_from_slice(bytes);
        at
    }
}
