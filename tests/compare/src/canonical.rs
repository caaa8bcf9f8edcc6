//! The message that a writable value is written to, by this crate's own
//! reading of the writer's rules.

use crate::schema::*;
use crate::value::Value;

/// The first bytes of a message.
pub const MESSAGE_MAGIC: u32 = 0xB5C0_C4B3;

/// The magic that starts an object.
pub fn magic(schema: &Schema, record: &Record) -> u32 {
    match record.kind {
        TEXT => 0xD812_C8F5,
        BYTES => 0xDCDB_BE10,
        LIST => 0x3400_BB46,
        DIRECT => 0xE2C6_CC05,
        _ => schema.tables[usize::from(record.argument)].id,
    }
}

/// A reference still to be filled in: where it stands, and what it leads to.
struct Pending<'a> {
    at: usize,
    record: Record,
    value: &'a Value,
}

struct Writer<'a> {
    schema: &'a Schema,
    out: Vec<u8>,
}

/// The message of a root value that is writable, or was while unions in place were written.
pub fn message(schema: &Schema, root: &Value) -> Vec<u8> {
    let mut writer = Writer {
        schema,
        out: Vec::new(),
    };
    writer.header(MESSAGE_MAGIC);
    writer.set_offset(4, schema.coding.header() as u64);
    writer.object(&Record::plain(TABLE, schema.root), root);
    writer.out
}

impl<'a> Writer<'a> {
    fn set(&mut self, at: usize, value: u64, width: usize) {
        self.out[at..at + width].copy_from_slice(&value.to_le_bytes()[..width]);
    }

    /// Sets an offset or a length.
    fn set_offset(&mut self, at: usize, value: u64) {
        self.set(at, value, self.schema.coding.offset());
    }

    /// Writes a magic, and zeros for an offset or a length.
    fn header(&mut self, magic: u32) {
        let end = self.out.len() + self.schema.coding.header();
        self.out.extend_from_slice(&magic.to_le_bytes());
        self.out.resize(end, 0);
    }

    /// Writes the rest of a direct list's header: "U32 table id, U32 size"; "The
    /// writer uses the full size."
    fn direct_header(&mut self, table: u8) {
        let id = self.schema.tables[usize::from(table)].id;
        let (_, full) = self.schema.slots(table);
        self.out.extend_from_slice(&id.to_le_bytes());
        self.out.extend_from_slice(&(full as u32).to_le_bytes());
    }

    /// Writes an object with all that it leads to.
    fn object(&mut self, record: &Record, value: &'a Value) {
        let start = self.out.len();
        self.header(magic(self.schema, record));
        if record.kind == DIRECT {
            self.direct_header(record.argument);
        }
        let mut pending = Vec::new();
        let length = self.content(record, value, &mut pending);
        self.set_offset(start + 4, length);
        for next in pending {
            let place = self.out.len() as u64;
            self.set_offset(next.at, place);
            self.object(&next.record, next.value);
        }
    }

    /// Writes content with its in-place chain; gives the length.
    fn content(
        &mut self,
        record: &Record,
        value: &'a Value,
        pending: &mut Vec<Pending<'a>>,
    ) -> u64 {
        match value {
            Value::Blob(bytes) => {
                self.out.extend_from_slice(bytes);
                if record.kind == TEXT {
                    self.out.push(0);
                }
                bytes.len() as u64
            }
            Value::List(parts) if record.kind == DIRECT => {
                // None of the elements has anything in place behind it.
                for element in parts {
                    self.content(&self.schema.element_of(record), element, pending);
                }
                parts.len() as u64
            }
            Value::List(parts) => {
                self.list(record.argument, parts, pending);
                parts.len() as u64
            }
            Value::Table(parts) => self.table(record.argument, parts, pending),
            _ => unreachable!("only objects have content"),
        }
    }

    fn list(&mut self, index: u8, parts: &'a [Value], pending: &mut Vec<Pending<'a>>) {
        let element = self.schema.lists[usize::from(index)];
        let start = self.out.len();
        let bits = self.schema.element_bits(&element) as usize * parts.len();
        self.out.resize(start + bits.div_ceil(8), 0);
        for (i, part) in parts.iter().enumerate() {
            if element.kind == BOOL {
                let bit = u8::from(*part == Value::Bool(true));
                self.out[start + i / 8] |= bit << (i % 8);
            } else {
                let at = start + i * self.schema.value_size(&element);
                self.fixed(at, &element, part, pending);
            }
        }
    }

    fn table(&mut self, index: u8, parts: &'a [Value], pending: &mut Vec<Pending<'a>>) -> u64 {
        let schema = self.schema;
        let (slots, full) = schema.slots(index);
        let start = self.out.len();
        self.out.resize(start + full, 0);
        let members = &schema.tables[usize::from(index)].members;
        for ((member, part), slot) in members.iter().zip(parts).zip(slots) {
            let present = *part != Value::Absent;
            if let Some(flag) = slot.flag.filter(|_| present) {
                self.out[start + flag / 8] |= 1 << (flag % 8);
            }
            if member.kind == BOOL {
                let bit = u8::from(*part == Value::Bool(true));
                self.out[start + slot.first()] |= bit << (slot.value % 8);
            } else if member.in_place {
                self.in_place(start + slot.first(), member, part, pending);
            } else if present || slot.flag.is_none() {
                self.fixed(start + slot.first(), member, part, pending);
            }
        }
        full as u64
    }

    /// Writes an in-place member: its length, and its content at the end of
    /// the bytes so far, which is where its table's fixed part ends.
    fn in_place(
        &mut self,
        at: usize,
        member: &Record,
        part: &'a Value,
        pending: &mut Vec<Pending<'a>>,
    ) {
        match part {
            Value::Absent => {}
            Value::Union(choice, object) => {
                let cases = &self.schema.unions[usize::from(member.argument)];
                let case = cases[usize::from(*choice) - 1];
                self.set(at, u64::from(*choice), 2);
                let length = self.content(&case, object, pending);
                self.set_offset(at + 2, length);
            }
            _ => {
                let length = self.content(member, part, pending);
                self.set_offset(at, length);
            }
        }
    }

    /// Writes a value of whole bytes that stands where it is named.
    fn fixed(
        &mut self,
        at: usize,
        record: &Record,
        part: &'a Value,
        pending: &mut Vec<Pending<'a>>,
    ) {
        match (record.kind, part) {
            (ENUM, Value::Absent) => self.out[at] = 255,
            (F32, Value::Absent) => self.set(at, 0x7FC0_0000, 4),
            (F64, Value::Absent) => self.set(at, 0x7FF8_0000_0000_0000, 8),
            (_, Value::Bool(bit)) => self.out[at] = u8::from(*bit),
            (_, Value::Number(bits)) => self.set(at, *bits, record.width() as usize / 8),
            (_, Value::Struct(parts)) => self.structure(at, record.argument, parts, pending),
            (_, Value::Union(choice, object)) => {
                let cases = &self.schema.unions[usize::from(record.argument)];
                let record = cases[usize::from(*choice) - 1];
                self.set(at, u64::from(*choice), 2);
                let (at, value) = (at + 2, object.as_ref());
                pending.push(Pending { at, record, value });
            }
            (_, Value::Absent | Value::Unknown(_)) => {}
            (_, value) => {
                let record = *record;
                pending.push(Pending { at, record, value });
            }
        }
    }

    fn structure(
        &mut self,
        start: usize,
        index: u8,
        parts: &'a [Value],
        pending: &mut Vec<Pending<'a>>,
    ) {
        let schema = self.schema;
        let mut at = start;
        for (member, part) in schema.structs[usize::from(index)].iter().zip(parts) {
            self.fixed(at, member, part, pending);
            at += schema.value_size(member);
        }
    }
}
