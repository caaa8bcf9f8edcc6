//! Value sheets: this crate's own encoder and decoder.

use crate::bits::{BitReader, BitWriter};
use crate::schema::*;
use crate::text_gen::is_text;
use crate::value::Value;

/// A place in a sheet where a mark stands.
#[derive(Clone, Copy, Debug)]
pub struct MarkSite {
    pub bit: usize,
    pub mark: u8,
    pub record: Record,
}

/// A sheet with where things stand in it.
pub struct Encoded {
    pub bytes: Vec<u8>,
    pub marks: Vec<MarkSite>,
    /// The first bits of the texts that are none.
    pub no_texts: Vec<usize>,
    /// The bits of the sheet, without those that fill the last byte.
    pub bits: usize,
}

struct Encoder<'a> {
    schema: &'a Schema,
    out: BitWriter,
    marks: Vec<MarkSite>,
    no_texts: Vec<usize>,
}

impl Encoder<'_> {
    fn entry(&mut self, record: &Record, value: &Value) {
        let mark = match value {
            Value::Absent => 0,
            Value::Unknown(_) => 2,
            _ => 1,
        };
        self.marks.push(MarkSite {
            bit: self.out.position(),
            mark,
            record: *record,
        });
        self.out.put(u64::from(mark), 2);
        self.content(record, value);
    }

    fn content(&mut self, record: &Record, value: &Value) {
        let argument = usize::from(record.argument);
        match value {
            Value::Absent => {}
            Value::Unknown(number) => {
                let width = if record.kind == ENUM { 8 } else { 16 };
                self.out.put(u64::from(*number), width);
            }
            Value::Bool(bit) => self.out.put(u64::from(*bit), 1),
            Value::Number(bits) => self.out.put(*bits, record.width() as usize),
            Value::Struct(parts) => {
                let members = &self.schema.structs[argument];
                self.parts(members, parts, |member| member.kind == ENUM);
            }
            Value::Blob(bytes) => {
                self.out.put(bytes.len() as u64, 32);
                if record.kind == TEXT && !is_text(bytes) {
                    self.no_texts.push(self.out.position());
                }
                self.out.put_bytes(bytes);
            }
            Value::List(parts) => {
                self.out.put(parts.len() as u64, 32);
                let element = self.schema.element_of(record);
                let marked = self.schema.marks_elements(record);
                for part in parts {
                    self.parts(&[element], std::slice::from_ref(part), |_| marked);
                }
            }
            Value::Table(parts) => {
                let members = &self.schema.tables[argument].members;
                self.parts(members, parts, |_| true);
            }
            Value::Union(choice, object) => {
                self.out.put(u64::from(*choice), 16);
                let case = self.schema.unions[argument][usize::from(*choice) - 1];
                self.content(&case, object);
            }
        }
    }

    fn parts(&mut self, records: &[Record], parts: &[Value], marked: impl Fn(&Record) -> bool) {
        assert_eq!(records.len(), parts.len());
        for (record, part) in records.iter().zip(parts) {
            if marked(record) {
                self.entry(record, part);
            } else {
                self.content(record, part);
            }
        }
    }
}

/// The sheet of a root value.
pub fn encode(schema: &Schema, root: &Value) -> Vec<u8> {
    encode_with_sites(schema, root).bytes
}

/// The sheet of a root value, with where things stand in it.
pub fn encode_with_sites(schema: &Schema, root: &Value) -> Encoded {
    let mut encoder = Encoder {
        schema,
        out: BitWriter::default(),
        marks: Vec::new(),
        no_texts: Vec::new(),
    };
    encoder.content(&Record::plain(TABLE, schema.root), root);
    Encoded {
        bits: encoder.out.position(),
        bytes: encoder.out.finish(),
        marks: encoder.marks,
        no_texts: encoder.no_texts,
    }
}

struct Decoder<'a> {
    schema: &'a Schema,
    bits: BitReader<'a>,
}

impl Decoder<'_> {
    fn entry(&mut self, record: &Record, depth: u32) -> Option<Value> {
        match self.bits.take(2)? {
            0 => Some(Value::Absent),
            1 => self.content(record, depth),
            2 => self.unknown(record),
            _ => None,
        }
    }

    fn unknown(&mut self, record: &Record) -> Option<Value> {
        if record.kind == ENUM {
            let number = self.bits.take(8)?;
            let known = number < u64::from(record.argument) || number == 255;
            (!known).then_some(Value::Unknown(number as u16))
        } else if record.kind == UNION {
            let choice = self.bits.take(16)?;
            let cases = self.schema.unions[usize::from(record.argument)].len() as u64;
            (choice > cases).then_some(Value::Unknown(choice as u16))
        } else {
            None
        }
    }

    /// The content of an entry; `depth` is that of its holder.
    fn content(&mut self, record: &Record, depth: u32) -> Option<Value> {
        let argument = usize::from(record.argument);
        if record.is_object() && depth >= DEPTH_LIMIT {
            return None;
        }
        match record.kind {
            BOOL => self.bits.take(1).map(|bit| Value::Bool(bit == 1)),
            ENUM => {
                let number = self.bits.take(8)?;
                (number < u64::from(record.argument)).then_some(Value::Number(number))
            }
            STRUCT => self.structure(argument, depth).map(Value::Struct),
            TEXT | BYTES => {
                let length = self.bits.take(32)? as usize;
                self.bits.take_bytes(length).map(Value::Blob)
            }
            LIST | DIRECT => self.list(record, depth + 1).map(Value::List),
            TABLE => self.table(argument, depth + 1).map(Value::Table),
            UNION => {
                let choice = self.bits.take(16)? as usize;
                let case = *self.schema.unions[argument].get(choice.checked_sub(1)?)?;
                let object = self.content(&case, depth)?;
                Some(Value::Union(choice as u16, Box::new(object)))
            }
            _ => self.bits.take(record.width() as usize).map(Value::Number),
        }
    }

    fn structure(&mut self, index: usize, depth: u32) -> Option<Vec<Value>> {
        let schema = self.schema;
        let mut parts = Vec::new();
        for member in &schema.structs[index] {
            parts.push(if member.kind == ENUM {
                self.entry(member, depth)?
            } else {
                self.content(member, depth)?
            });
        }
        Some(parts)
    }

    fn list(&mut self, list: &Record, depth: u32) -> Option<Vec<Value>> {
        let element = self.schema.element_of(list);
        let count = self.bits.take(32)? as usize;
        if count > self.bits.left() {
            return None;
        }
        let marked = self.schema.marks_elements(list);
        let mut parts = Vec::new();
        for _ in 0..count {
            parts.push(if marked {
                self.entry(&element, depth)?
            } else {
                self.content(&element, depth)?
            });
        }
        Some(parts)
    }

    fn table(&mut self, index: usize, depth: u32) -> Option<Vec<Value>> {
        let schema = self.schema;
        schema.tables[index]
            .members
            .iter()
            .map(|member| self.entry(member, depth))
            .collect()
    }
}

/// The root value of a lawful sheet; `None` for any other bytes.
pub fn decode(schema: &Schema, sheet: &[u8]) -> Option<Value> {
    if sheet.len() > SIZE_LIMIT {
        return None;
    }
    let mut decoder = Decoder {
        schema,
        bits: BitReader::new(sheet),
    };
    let root = decoder.content(&Record::plain(TABLE, schema.root), 0)?;
    let left = decoder.bits.left();
    let padded = left < 8 && decoder.bits.take(left)? == 0;
    padded.then_some(root)
}
