//! What the tests build by hand: schemas, messages and sheets, byte by byte
//! and bit by bit, without the program's own bit writer.

#![allow(dead_code)]

pub mod tabled;

use reference::{Answer, Budget, Verdict, NO_MEMBER};

pub const BOOL: u16 = 0;
pub const U8: u16 = 1 << 11;
pub const U16: u16 = 2 << 11;
pub const U32: u16 = 3 << 11;
pub const U64: u16 = 4 << 11;
pub const I8: u16 = 5 << 11;
pub const I16: u16 = 6 << 11;
pub const I32: u16 = 7 << 11;
pub const I64: u16 = 8 << 11;
pub const F32: u16 = 9 << 11;
pub const F64: u16 = 10 << 11;
pub const TEXT: u16 = 13 << 11;
pub const BYTES: u16 = 14 << 11;

/// An enum of `count` values.
pub fn enumeration(count: u16) -> u16 {
    11 << 11 | count
}

pub fn structure(index: u16) -> u16 {
    12 << 11 | index
}

pub fn list(index: u16) -> u16 {
    15 << 11 | index
}

pub fn table(index: u16) -> u16 {
    16 << 11 | index
}

pub fn union(index: u16) -> u16 {
    17 << 11 | index
}

/// A direct list of the tables of this index.
pub fn direct(index: u16) -> u16 {
    18 << 11 | index
}

/// The record with its optional bit.
pub fn optional(record: u16) -> u16 {
    record | 1 << 10
}

/// The record with its in-place bit.
pub fn in_place(record: u16) -> u16 {
    record | 1 << 9
}

/// The parts of a schema; its root is table 0 unless said otherwise.
#[derive(Clone, Default)]
pub struct Parts {
    pub structs: Vec<Vec<u16>>,
    pub lists: Vec<u16>,
    pub unions: Vec<Vec<u16>>,
    /// Ids and members.
    pub tables: Vec<(u32, Vec<u16>)>,
    pub root: u8,
}

impl Parts {
    pub fn pack(&self) -> Vec<u8> {
        let mut packed = vec![
            self.structs.len() as u8,
            self.lists.len() as u8,
            self.unions.len() as u8,
            self.tables.len() as u8,
            self.root,
        ];
        let records = |packed: &mut Vec<u8>, records: &[u16]| {
            for record in records {
                packed.extend_from_slice(&record.to_be_bytes());
            }
        };
        for members in &self.structs {
            packed.push(members.len() as u8);
            records(&mut packed, members);
        }
        records(&mut packed, &self.lists);
        for cases in &self.unions {
            packed.push(cases.len() as u8);
            records(&mut packed, cases);
        }
        for (id, members) in &self.tables {
            packed.extend_from_slice(&id.to_be_bytes());
            packed.push(members.len() as u8);
            records(&mut packed, members);
        }
        packed
    }
}

/// The id of table 0 in `one_table`.
pub const ID: u32 = 0x0A0B_0C0D;
/// Its bytes in a message.
pub const ID_BYTES: [u8; 4] = [0x0D, 0x0C, 0x0B, 0x0A];

/// A schema of one table with the given members.
pub fn one_table(members: &[u16]) -> Vec<u8> {
    Parts {
        tables: vec![(ID, members.to_vec())],
        ..Parts::default()
    }
    .pack()
}

/// Message bytes put one after another.
#[derive(Clone)]
pub struct Message {
    pub bytes: Vec<u8>,
}

impl Message {
    /// The message magic and the root offset.
    pub fn new(root: u64) -> Message {
        let mut message = Message { bytes: Vec::new() };
        message.raw(&[0xB3, 0xC4, 0xC0, 0xB5]).u48(root);
        message
    }

    pub fn raw(&mut self, bytes: &[u8]) -> &mut Message {
        self.bytes.extend_from_slice(bytes);
        self
    }

    pub fn u48(&mut self, number: u64) -> &mut Message {
        self.raw(&number.to_le_bytes()[..6])
    }

    /// A union: U16 choice and U48 offset or length.
    pub fn choice(&mut self, choice: u16, number: u64) -> &mut Message {
        self.raw(&choice.to_le_bytes()).u48(number)
    }

    /// The header of a table with this id.
    pub fn table(&mut self, id: u32, length: u64) -> &mut Message {
        self.raw(&id.to_le_bytes()).u48(length)
    }

    pub fn text_head(&mut self, length: u64) -> &mut Message {
        self.raw(&[0xF5, 0xC8, 0x12, 0xD8]).u48(length)
    }

    /// A whole text.
    pub fn text(&mut self, text: &str) -> &mut Message {
        self.text_of(text.as_bytes())
    }

    /// A whole text of any bytes.
    pub fn text_of(&mut self, bytes: &[u8]) -> &mut Message {
        self.text_head(bytes.len() as u64).raw(bytes).raw(&[0])
    }

    pub fn bytes_head(&mut self, length: u64) -> &mut Message {
        self.raw(&[0x10, 0xBE, 0xDB, 0xDC]).u48(length)
    }

    pub fn list_head(&mut self, length: u64) -> &mut Message {
        self.raw(&[0x46, 0xBB, 0x00, 0x34]).u48(length)
    }

    /// The header of a direct list.
    pub fn direct_head(&mut self, count: u64, id: u32, size: u32) -> &mut Message {
        self.raw(&[0x05, 0xCC, 0xC6, 0xE2]).u48(count);
        self.raw(&id.to_le_bytes()).raw(&size.to_le_bytes())
    }

    /// Where the next byte goes.
    pub fn here(&self) -> u64 {
        self.bytes.len() as u64
    }
}

/// A sheet bit by bit.
#[derive(Clone, Default)]
pub struct Sheet {
    bits: Vec<bool>,
}

impl Sheet {
    pub fn new() -> Sheet {
        Sheet::default()
    }

    /// A number, most significant bit first.
    pub fn put(mut self, value: u64, width: u32) -> Sheet {
        for bit in (0..width).rev() {
            self.bits.push(value >> bit & 1 == 1);
        }
        self
    }

    pub fn absent(self) -> Sheet {
        self.put(0, 2)
    }

    /// The mark of a present value.
    pub fn here(self) -> Sheet {
        self.put(1, 2)
    }

    /// The mark of an unknown value and its number.
    pub fn unknown(self, number: u64, width: u32) -> Sheet {
        self.put(2, 2).put(number, width)
    }

    /// A text or bytes, after its mark.
    pub fn text(self, text: &str) -> Sheet {
        self.text_of(text.as_bytes())
    }

    /// A text or bytes of any bytes, after its mark.
    pub fn text_of(mut self, bytes: &[u8]) -> Sheet {
        self = self.put(bytes.len() as u64, 32);
        for byte in bytes {
            self = self.put(u64::from(*byte), 8);
        }
        self
    }

    pub fn done(&self) -> Vec<u8> {
        let bit = |(number, &bit): (usize, &bool)| u8::from(bit) << (7 - number);
        self.bits
            .chunks(8)
            .map(|bits| bits.iter().enumerate().map(bit).sum())
            .collect()
    }
}

/// Judges with the largest content allowance. Its content is left out of the
/// answer, but tried: just so much is enough, and with less the answer is 17.
pub fn judge(coding: u32, schema: &[u8], message: &[u8], visits: u32) -> Verdict {
    let judged = |content| tabled::judge(coding, schema, message, Budget { visits, content });
    without_content(judged)
}

/// Reads to a sheet likewise.
pub fn read(
    coding: u32,
    schema: &[u8],
    message: &[u8],
    visits: u32,
    room: usize,
) -> (Verdict, Vec<u8>) {
    let budget = |content| Budget { visits, content };
    let mut sheet = Vec::new();
    let verdict = without_content(|content| {
        let (verdict, read) = tabled::read(coding, schema, message, budget(content), room);
        if content == u64::MAX {
            sheet = read;
        }
        verdict
    });
    (verdict, sheet)
}

/// The verdict with the largest content allowance, and 0 in place of its content.
fn without_content(mut judged: impl FnMut(u64) -> Verdict) -> Verdict {
    let verdict = judged(u64::MAX);
    assert_eq!(judged(verdict.content), verdict);
    if let Some(less) = verdict.content.checked_sub(1) {
        let short = judged(less);
        assert_eq!((short.number, short.member), (17, NO_MEMBER));
        assert!(short.visits <= verdict.visits && short.content <= less);
    }
    Verdict {
        content: 0,
        ..verdict
    }
}

/// A verdict that carries no member.
pub fn verdict(number: u32, place: u64, visits: u32) -> Verdict {
    verdict_of(number, place, NO_MEMBER, visits)
}

/// A verdict from its four numbers; its content is left out.
pub fn verdict_of(number: u32, place: u64, member: u32, visits: u32) -> Verdict {
    Verdict {
        number,
        place,
        member,
        visits,
        content: 0,
    }
}

/// The refusal of a field that carries no member.
pub fn refused(number: u32, place: u64) -> Answer {
    refused_of(number, place, NO_MEMBER)
}

/// The refusal of a field from its three numbers.
pub fn refused_of(number: u32, place: u64, member: u32) -> Answer {
    Answer::Refused {
        number,
        place,
        member,
    }
}

/// Bytes from hexadecimal, spaces aside.
pub fn hex(text: &str) -> Vec<u8> {
    text.split_whitespace()
        .map(|word| u8::from_str_radix(word, 16).unwrap())
        .collect()
}
