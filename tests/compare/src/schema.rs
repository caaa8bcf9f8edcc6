//! This crate's own model of a schema: its parts, its packed form, its rules
//! and the places of table members.

use crate::coding::Coding;
use crate::laws::hex;
use std::fmt;

/// The most bytes of a message or a sheet.
pub const SIZE_LIMIT: usize = 16_777_215;
/// The most objects on one way down, the root included.
pub const DEPTH_LIMIT: u32 = 32;
/// The most bytes of a struct.
pub const STRUCT_LIMIT: usize = 4096;

pub const BOOL: u8 = 0;
pub const F32: u8 = 9;
pub const F64: u8 = 10;
pub const ENUM: u8 = 11;
pub const STRUCT: u8 = 12;
pub const TEXT: u8 = 13;
pub const BYTES: u8 = 14;
pub const LIST: u8 = 15;
pub const TABLE: u8 = 16;
pub const UNION: u8 = 17;
/// A direct list; its argument is the table of its elements.
pub const DIRECT: u8 = 18;

/// The bytes of a direct list before its first element: magic, count, table id
/// and element size.
pub const DIRECT_HEADER: usize = 18;

/// One record: what a member, an element or a case is.
#[derive(Clone, Copy, Debug, PartialEq, Eq, Hash)]
pub struct Record {
    pub kind: u8,
    pub optional: bool,
    pub in_place: bool,
    pub zero: bool,
    pub argument: u8,
}

impl Record {
    /// A record without flags.
    pub fn plain(kind: u8, argument: u8) -> Record {
        Record {
            kind,
            optional: false,
            in_place: false,
            zero: false,
            argument,
        }
    }

    /// Whether the record is a float.
    pub fn is_float(&self) -> bool {
        self.kind == F32 || self.kind == F64
    }

    /// Whether the record is an integer.
    pub fn is_integer(&self) -> bool {
        (1..=8).contains(&self.kind)
    }

    /// Whether the record leads to an object: text, bytes, list, table or direct list.
    pub fn is_object(&self) -> bool {
        (TEXT..=TABLE).contains(&self.kind) || self.kind == DIRECT
    }

    /// The bits of a number of this kind, enums included.
    pub fn width(&self) -> u32 {
        match self.kind {
            1 | 5 | ENUM => 8,
            2 | 6 => 16,
            3 | 7 | F32 => 32,
            4 | 8 | F64 => 64,
            _ => 0,
        }
    }

    fn packed(&self) -> [u8; 2] {
        let flags =
            u8::from(self.optional) << 2 | u8::from(self.in_place) << 1 | u8::from(self.zero);
        [self.kind << 3 | flags, self.argument]
    }
}

/// A table: its id and its members.
#[derive(Clone, Debug, PartialEq, Eq)]
pub struct Table {
    pub id: u32,
    pub members: Vec<Record>,
}

/// A packed schema, lawful or not, the number of the coding it is used under, and the
/// table of positions lent with it.
#[derive(Clone, Debug, PartialEq, Eq)]
pub struct Packed {
    coding: u32,
    bytes: Vec<u8>,
    positions: Vec<u8>,
}

impl Packed {
    /// These bytes under a coding, with their own table.
    pub fn new(coding: Coding, bytes: &[u8]) -> Packed {
        Packed::made(coding.number(), bytes.to_vec())
    }

    /// With the table that the second program makes; it makes none of an unlawful schema.
    fn made(coding: u32, bytes: Vec<u8>) -> Packed {
        let (_, positions) = reference::positions(coding, &bytes, usize::MAX);
        Packed {
            coding,
            bytes,
            positions,
        }
    }

    /// Other bytes under the same coding, with their own table.
    pub fn with(&self, bytes: Vec<u8>) -> Packed {
        Packed::made(self.coding, bytes)
    }

    /// The same bytes under the coding of this number, if it is one's, with their own table.
    pub fn under(&self, coding: u32) -> Packed {
        Packed::made(coding, self.bytes.clone())
    }

    /// The same with a table that may be any.
    pub fn lending(&self, positions: Vec<u8>) -> Packed {
        Packed {
            positions,
            ..self.clone()
        }
    }

    pub fn coding(&self) -> u32 {
        self.coding
    }

    pub fn bytes(&self) -> &[u8] {
        &self.bytes
    }

    pub fn positions(&self) -> &[u8] {
        &self.positions
    }

    /// As the second program takes it.
    pub fn lent(&self) -> reference::Lent<'_> {
        reference::Lent {
            coding: self.coding,
            schema: &self.bytes,
            positions: &self.positions,
        }
    }
}

/// What a report says of it.
impl fmt::Display for Packed {
    fn fmt(&self, out: &mut fmt::Formatter) -> fmt::Result {
        write!(out, "{} under {}", hex(&self.bytes), self.coding)
    }
}

/// A schema, lawful or not.
#[derive(Clone, Debug, PartialEq, Eq)]
pub struct Schema {
    pub coding: Coding,
    pub structs: Vec<Vec<Record>>,
    pub lists: Vec<Record>,
    pub unions: Vec<Vec<Record>>,
    pub tables: Vec<Table>,
    pub root: u8,
}

/// Where a table member stands in the fixed part, in bits from its start.
#[derive(Clone, Copy, Debug, PartialEq, Eq)]
pub struct Slot {
    pub flag: Option<usize>,
    pub value: usize,
    pub bits: usize,
}

/// How a member stands to the end of a fixed part.
#[derive(Clone, Copy, Debug, PartialEq, Eq)]
pub enum Reach {
    /// Starts at or after the end.
    Gone,
    /// Its flag is inside, its value starts at or after the end.
    FlagOnly,
    /// Wholly inside.
    Inside,
    /// Cut by the end.
    Cut,
}

impl Slot {
    /// The byte at which the member starts, the flag included.
    pub fn start(&self) -> usize {
        self.flag.unwrap_or(self.value) / 8
    }

    /// The first byte of the value.
    pub fn first(&self) -> usize {
        self.value / 8
    }

    /// The byte after the value.
    pub fn end(&self) -> usize {
        (self.value + self.bits).div_ceil(8)
    }

    /// How the member stands to a fixed part of `length` bytes.
    pub fn reach(&self, length: usize) -> Reach {
        if self.start() >= length {
            Reach::Gone
        } else if self.end() <= length {
            Reach::Inside
        } else if self.flag.is_some() && self.first() >= length {
            Reach::FlagOnly
        } else {
            Reach::Cut
        }
    }
}

/// Gives table members their places one after another.
#[derive(Default)]
struct Placer {
    size: usize,
    bool_byte: usize,
    bools_used: usize,
}

impl Placer {
    fn new() -> Placer {
        Placer {
            bools_used: 8,
            ..Placer::default()
        }
    }

    fn boolean(&mut self) -> usize {
        if self.bools_used == 8 {
            self.bool_byte = self.size;
            self.bools_used = 0;
            self.size += 1;
        }
        self.bools_used += 1;
        8 * self.bool_byte + self.bools_used - 1
    }

    fn bytes(&mut self, count: usize) -> usize {
        self.size += count;
        8 * (self.size - count)
    }
}

impl Schema {
    /// A schema of nothing.
    pub fn new(coding: Coding) -> Schema {
        Schema {
            coding,
            structs: Vec::new(),
            lists: Vec::new(),
            unions: Vec::new(),
            tables: Vec::new(),
            root: 0,
        }
    }

    /// The packed form.
    pub fn pack(&self) -> Packed {
        Packed::new(self.coding, &self.packed_bytes())
    }

    fn packed_bytes(&self) -> Vec<u8> {
        let mut out = vec![
            self.structs.len() as u8,
            self.lists.len() as u8,
            self.unions.len() as u8,
            self.tables.len() as u8,
            self.root,
        ];
        let many = |out: &mut Vec<u8>, records: &[Record]| {
            out.push(records.len() as u8);
            for record in records {
                out.extend_from_slice(&record.packed());
            }
        };
        for members in &self.structs {
            many(&mut out, members);
        }
        for element in &self.lists {
            out.extend_from_slice(&element.packed());
        }
        for cases in &self.unions {
            many(&mut out, cases);
        }
        for table in &self.tables {
            out.extend_from_slice(&table.id.to_be_bytes());
            many(&mut out, &table.members);
        }
        out
    }

    /// The bytes a struct takes.
    pub fn struct_size(&self, index: u8) -> usize {
        self.structs[usize::from(index)]
            .iter()
            .map(|member| self.value_size(member))
            .sum()
    }

    /// The bytes of a value; of a bool those it takes in a struct.
    pub fn value_size(&self, record: &Record) -> usize {
        match record.kind {
            BOOL => 1,
            STRUCT => self.struct_size(record.argument),
            TEXT..=TABLE | DIRECT => self.coding.offset(),
            UNION => self.coding.union(),
            _ => record.width() as usize / 8,
        }
    }

    /// The bits one element takes in a list.
    pub fn element_bits(&self, record: &Record) -> u64 {
        match record.kind {
            BOOL => 1,
            _ => 8 * self.value_size(record) as u64,
        }
    }

    /// The content bytes that an object of this length adds: a text's without its
    /// end byte, and none of a direct list, whose elements add their own.
    pub fn content(&self, kind: u8, argument: u8, length: u64) -> u64 {
        match kind {
            LIST => {
                let element = self.lists[usize::from(argument)];
                (length * self.element_bits(&element)).div_ceil(8)
            }
            DIRECT => 0,
            _ => length,
        }
    }

    /// The bytes of an object's header.
    pub fn header(&self, kind: u8) -> usize {
        match kind {
            DIRECT => DIRECT_HEADER,
            _ => self.coding.header(),
        }
    }

    /// What the elements of a list or a direct list are.
    pub fn element_of(&self, list: &Record) -> Record {
        match list.kind {
            DIRECT => Record::plain(TABLE, list.argument),
            _ => self.lists[usize::from(list.argument)],
        }
    }

    /// Whether each element of a list or a direct list has a mark in a sheet.
    pub fn marks_elements(&self, list: &Record) -> bool {
        let element = self.element_of(list);
        list.kind != DIRECT && element.kind != BOOL && !element.is_integer()
    }

    /// Whether a table may be a direct list's: "at least one member and none in place".
    pub fn may_be_direct(&self, table: usize) -> bool {
        let members = &self.tables[table].members;
        !self.coding.is_older() && !members.is_empty() && members.iter().all(|m| !m.in_place)
    }

    /// Whether a table is a direct list's.
    pub fn is_direct(&self, table: usize) -> bool {
        let direct = |record: &Record| {
            let argument = usize::from(record.argument);
            record.kind == DIRECT && argument == table
        };
        let mut members = self.tables.iter().flat_map(|table| &table.members);
        self.lists.iter().any(direct)
            || self.unions.iter().flatten().any(direct)
            || members.any(direct)
    }

    /// Whether a union has a direct list among its cases.
    pub fn has_direct_case(&self, union: u8) -> bool {
        let cases = &self.unions[usize::from(union)];
        cases.iter().any(|case| case.kind == DIRECT)
    }

    /// Whether a table holds a union in place.
    pub fn held_in_place(&self, union: usize) -> bool {
        let mut members = self.tables.iter().flat_map(|table| &table.members);
        members.any(|m| m.in_place && m.kind == UNION && usize::from(m.argument) == union)
    }

    /// The same schema in which only the in-place flag of unions is cleared.
    pub fn cleared(&self) -> Schema {
        let mut cleared = self.clone();
        let tables = cleared.tables.iter_mut();
        for member in tables.flat_map(|table| &mut table.members) {
            member.in_place &= member.kind != UNION;
        }
        cleared
    }

    /// Whether a table may get another member in place.
    pub fn may_hold_in_place(&self, table: usize) -> bool {
        let taken = self.tables[table].members.iter().any(|m| m.in_place);
        !taken && !self.is_direct(table)
    }

    /// The places of a table's members, and the size of its full fixed part.
    pub fn slots(&self, table: u8) -> (Vec<Slot>, usize) {
        let mut placer = Placer::new();
        let mut slots = Vec::new();
        for member in &self.tables[usize::from(table)].members {
            let flag = (member.optional && !member.is_float()).then(|| placer.boolean());
            let (value, bits) = if member.kind == BOOL {
                (placer.boolean(), 1)
            } else {
                let size = self.value_size(member);
                (placer.bytes(size), 8 * size)
            };
            slots.push(Slot { flag, value, bits });
        }
        (slots, placer.size)
    }

    /// Whether a struct has a bool, in an inner struct too.
    pub fn struct_has_bool(&self, index: u8) -> bool {
        self.structs[usize::from(index)]
            .iter()
            .any(|member| match member.kind {
                BOOL => true,
                STRUCT => self.struct_has_bool(member.argument),
                _ => false,
            })
    }
}

/// A schema of one table, which has the one member.
pub fn root_with(coding: Coding, member: Record) -> Schema {
    let table = Table {
        id: 0x5EA7_0001,
        members: vec![member],
    };
    Schema {
        tables: vec![table],
        ..Schema::new(coding)
    }
}
