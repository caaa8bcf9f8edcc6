//! What a value sheet is: lawful, writable, and how large its message is.

use crate::bits::BitReader;
use crate::message::{header_size, is_nan, list_bytes, DEPTH, SIZE};
use crate::schema::{Kind, Schema, Target};
use crate::sheet::{ABSENT, PRESENT, UNKNOWN};
use crate::utf8;

/// A sheet passed over from its start, and what was learned on the way.
pub struct Plan<'a> {
    schema: &'a Schema,
    pub sheet: BitReader<'a>,
    /// No entry so far is one that cannot be written, present in-place unions
    /// aside.
    pub writable: bool,
    /// A union so far is present in place.
    pub union_in_place: bool,
    /// The message's bytes so far.
    pub size: u64,
    /// For each object with a header, in the sheet's order: its bytes with
    /// the chain of in-place contents behind it. Kept only while the message
    /// is not over the size.
    pub blocks: Vec<usize>,
}

/// Content in the sheet, as it would stand in the message.
struct Content {
    /// Bytes, elements or fixed-part bytes.
    length: u64,
    /// The content's bytes with the chain of in-place contents behind it.
    bytes: u64,
}

/// The plan of a sheet; none where the sheet is not lawful or deeper than 32.
/// The sheet's own length is not judged here.
pub fn plan<'a>(schema: &'a Schema, sheet: &'a [u8]) -> Option<Plan<'a>> {
    let mut plan = Plan::at(schema, BitReader::new(sheet));
    plan.size = schema.coding.header() as u64;
    plan.head(Target::Table(schema.root), 1)?;
    plan.sheet.is_finished().then_some(plan)
}

impl<'a> Plan<'a> {
    /// A plan that goes on from a place in a sheet.
    pub fn at(schema: &'a Schema, sheet: BitReader<'a>) -> Plan<'a> {
        Plan {
            schema,
            sheet,
            writable: true,
            union_in_place: false,
            size: 0,
            blocks: Vec::new(),
        }
    }

    /// An object with a header of its own.
    fn head(&mut self, target: Target, depth: u32) -> Option<()> {
        let number = self.blocks.len();
        let kept = self.size <= SIZE as u64;
        if kept {
            self.blocks.push(0);
        }
        let content = self.content(target, depth)?;
        let bytes = header_size(self.schema.coding, target) as u64 + content.bytes;
        self.size = self.size.saturating_add(bytes);
        if kept {
            self.blocks[number] = usize::try_from(bytes).unwrap_or(usize::MAX);
        }
        Some(())
    }

    /// An object's content, whatever stands before it.
    fn content(&mut self, target: Target, depth: u32) -> Option<Content> {
        if depth > DEPTH {
            return None;
        }
        let (length, bytes) = match target {
            Target::Text => {
                let length = self.sheet.take(32)?;
                // "a sheet with such a text is 12"
                let text = self.sheet.take_vec(length)?;
                self.writable &= utf8::is_text(&text);
                (length, length + 1)
            }
            Target::Bytes => {
                let length = self.sheet.take(32)?;
                self.sheet.skip(length * 8)?;
                (length, length)
            }
            Target::List(index) => {
                let count = self.sheet.take(32)?;
                self.elements(index, count, depth)?;
                let element = self.schema.element(index);
                (count, list_bytes(self.schema.coding, element, count))
            }
            Target::Table(index) => {
                let size = self.schema.table(index).size as u64;
                (size, size.saturating_add(self.table(index, depth)?))
            }
            Target::Direct(index) => {
                let count = self.sheet.take(32)?;
                // Each has a member, so that the sheet ends a long count.
                for _ in 0..count {
                    self.content(Target::Table(index), depth + 1)?;
                }
                // "The writer uses the full size." No element has anything in
                // place behind it.
                (count, count * self.schema.table(index).size as u64)
            }
        };
        Some(Content { length, bytes })
    }

    /// A table's members. Answers the bytes of the in-place chain behind it.
    fn table(&mut self, index: u8, depth: u32) -> Option<u64> {
        let schema = self.schema;
        let mut behind = 0;
        for member in &schema.table(index).members {
            let record = &member.record;
            behind += self.entry(record.kind, !record.optional, record.in_place, depth)?;
        }
        Some(behind)
    }

    fn elements(&mut self, index: u8, count: u64, depth: u32) -> Option<()> {
        match self.schema.element(index) {
            Kind::Bool => self.sheet.skip(count),
            Kind::Integer { bytes, .. } => self.sheet.skip(count * u64::from(bytes) * 8),
            kind => {
                for _ in 0..count {
                    self.entry(kind, false, false, depth)?;
                }
                Some(())
            }
        }
    }

    /// One entry with its mark, held by an object at `depth`. Answers the
    /// bytes it puts in place behind its table.
    ///
    /// `plain` is for a table member without the optional mark: it must be
    /// there if it is a bool, number or struct, and a NaN in it is a value.
    pub fn entry(&mut self, kind: Kind, plain: bool, in_place: bool, depth: u32) -> Option<u64> {
        match self.sheet.take(2)? {
            ABSENT => {
                // "an absent plain bool, integer, struct or float member"
                let scalar = !matches!(kind, Kind::Enum { .. } | Kind::Object(_) | Kind::Union(_));
                self.writable &= !(plain && scalar);
                Some(0)
            }
            PRESENT => self.present(kind, plain, in_place, depth),
            UNKNOWN => {
                // "Not writable: an unknown mark".
                self.writable = false;
                self.unknown(kind)?;
                Some(0)
            }
            _ => None,
        }
    }

    /// "Unknown (enum, union only): the 8-bit or 16-bit number, which must
    /// truly be unknown."
    fn unknown(&mut self, kind: Kind) -> Option<()> {
        let unknown = match kind {
            Kind::Enum { count } => {
                let number = self.sheet.take(8)?;
                number >= u64::from(count) && number != 255
            }
            Kind::Union(index) => {
                let choice = self.sheet.take(16)?;
                choice > self.schema.cases(index).len() as u64
            }
            _ => false,
        };
        unknown.then_some(())
    }

    fn present(&mut self, kind: Kind, plain: bool, in_place: bool, depth: u32) -> Option<u64> {
        match kind {
            Kind::Bool => self.sheet.skip(1)?,
            Kind::Integer { bytes, .. } => self.sheet.skip(u64::from(bytes) * 8)?,
            Kind::Float { bytes } => {
                let bits = self.sheet.take(u32::from(bytes) * 8)?;
                // "a present NaN in an optional float member or as a list
                // element (not inside a struct)"
                self.writable &= plain || !is_nan(bits, bytes);
            }
            Kind::Enum { count } => {
                // "A present enum is below its count".
                if self.sheet.take(8)? >= u64::from(count) {
                    return None;
                }
            }
            Kind::Struct(index) => self.structure(index)?,
            Kind::Object(target) if in_place => {
                let content = self.content(target, depth + 1)?;
                // "a present in-place text, bytes, list or table of length 0"
                self.writable &= content.length != 0;
                return Some(content.bytes);
            }
            Kind::Object(target) => self.head(target, depth + 1)?,
            Kind::Union(index) => {
                // "a present choice known"
                let choice = self.sheet.take(16)?;
                let target = self.schema.case(index, choice)?;
                return self.case(target, in_place, depth);
            }
        }
        Some(0)
    }

    /// A union's object, after its choice.
    pub fn case(&mut self, target: Target, in_place: bool, depth: u32) -> Option<u64> {
        if in_place {
            self.union_in_place = true;
            return Some(self.content(target, depth + 1)?.bytes);
        }
        self.head(target, depth + 1)?;
        Some(0)
    }

    /// A struct's members: only enums have a mark.
    fn structure(&mut self, index: u8) -> Option<()> {
        let schema = self.schema;
        for member in &schema.structure(index).members {
            match member.kind {
                Kind::Bool => self.sheet.skip(1)?,
                Kind::Integer { bytes, .. } | Kind::Float { bytes } => {
                    self.sheet.skip(u64::from(bytes) * 8)?;
                }
                Kind::Enum { .. } => {
                    self.entry(member.kind, false, false, 0)?;
                }
                Kind::Struct(index) => self.structure(index)?,
                // A lawful struct has no others.
                Kind::Object(_) | Kind::Union(_) => {}
            }
        }
        Some(())
    }
}
