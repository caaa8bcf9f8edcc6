//! A value sheet to its message.

use crate::bits::BitReader;
use crate::message::{header_size, magic, DIRECT_ID, DIRECT_SIZE};
use crate::message::{MESSAGE_MAGIC, NO_ENUM, SIZE};
use crate::plan::{plan, Plan};
use crate::schema::{Kind, Member, Schema, Target};
use crate::sheet::PRESENT;

/// Writes a sheet as a message. Number 0, 1, 11, 12, 13 or 14; the message
/// where it is 0. "Writing tries 1, 11, 12, 13, 14, each over the whole sheet".
pub fn write(coding: u32, schema: &[u8], sheet: &[u8], room: usize) -> (u32, Vec<u8>) {
    written(try_write(coding, schema, sheet, room, |schema, plan| {
        // "From now the writer refuses a present one ...; absent is still
        // written." It is present whatever its content, an empty one too.
        let kept = schema.coding.writes_unions_in_place();
        plan.writable && (kept || !plan.union_in_place)
    }))
}

/// A stored message: the sheet written by the rules as they were before
/// in-place unions went (request K12). Its 12 is "for an older reason".
pub fn write_stored(coding: u32, schema: &[u8], sheet: &[u8], room: usize) -> (u32, Vec<u8>) {
    written(try_write(coding, schema, sheet, room, |_, plan| {
        plan.writable
    }))
}

fn written(outcome: Result<Vec<u8>, u32>) -> (u32, Vec<u8>) {
    match outcome {
        Ok(message) => (0, message),
        Err(number) => (number, Vec::new()),
    }
}

fn try_write(
    coding: u32,
    schema: &[u8],
    sheet: &[u8],
    room: usize,
    writable: fn(&Schema, &Plan) -> bool,
) -> Result<Vec<u8>, u32> {
    let schema = Schema::parse(coding, schema).ok_or(1u32)?;
    if sheet.len() > SIZE {
        return Err(11);
    }
    let plan = plan(&schema, sheet).ok_or(11u32)?;
    if !writable(&schema, &plan) {
        return Err(12);
    }
    if plan.size > SIZE as u64 {
        return Err(13);
    }
    let size = plan.size as usize;
    if size > room {
        return Err(14);
    }
    let mut writer = Writer {
        schema: &schema,
        sheet: BitReader::new(sheet),
        out: vec![0; size],
        blocks: plan.blocks.iter(),
        free: schema.coding.header(),
    };
    // The plan has read the whole sheet, so nothing is missing in it.
    writer.message().ok_or(11u32)?;
    Ok(writer.out)
}

struct Writer<'a> {
    schema: &'a Schema,
    sheet: BitReader<'a>,
    /// The whole message, zero where nothing is written.
    out: Vec<u8>,
    /// The bytes of each object with its chain, in the sheet's order.
    blocks: std::slice::Iter<'a, usize>,
    /// Where the next object with a header goes.
    free: usize,
}

impl Writer<'_> {
    /// "The writer puts the root at 10", or "at 8" in the older coding.
    fn message(&mut self) -> Option<()> {
        self.put(0, u64::from(MESSAGE_MAGIC), 4);
        let root = self.head(Target::Table(self.schema.root))?;
        self.put_offset(4, root as u64);
        Some(())
    }

    /// A little-endian number.
    fn put(&mut self, at: usize, value: u64, bytes: usize) {
        self.out[at..at + bytes].copy_from_slice(&value.to_le_bytes()[..bytes]);
    }

    /// An offset or a length, as wide as the coding has them.
    fn put_offset(&mut self, at: usize, value: u64) {
        self.put(at, value, self.schema.coding.offset());
    }

    /// "An object is written with its chain of in-place contents behind it;
    /// then the objects that these refer to in walk order, each followed by
    /// its own before the next." The sheet holds them in that same order, so
    /// each goes where all before it end. Answers where it was put.
    fn head(&mut self, target: Target) -> Option<usize> {
        let place = self.free;
        self.free += self.blocks.next()?;
        let header = header_size(self.schema.coding, target);
        let length = self.content(target, place + header)?;
        self.put(place, u64::from(magic(self.schema, target)), 4);
        self.put_offset(place + 4, length);
        if let Target::Direct(index) = target {
            let table = self.schema.table(index);
            self.put(place + DIRECT_ID, u64::from(table.id), 4);
            self.put(place + DIRECT_SIZE, table.size as u64, 4);
        }
        Some(place)
    }

    /// An object's content at `start`. Answers its length.
    fn content(&mut self, target: Target, start: usize) -> Option<u64> {
        match target {
            Target::Text | Target::Bytes => {
                let length = self.sheet.take(32)?;
                let end = start + length as usize;
                self.sheet.take_bytes(&mut self.out[start..end])?;
                Some(length)
            }
            Target::List(index) => {
                let count = self.sheet.take(32)?;
                self.elements(index, start, count as usize)?;
                Some(count)
            }
            Target::Table(index) => {
                let schema = self.schema;
                let table = schema.table(index);
                for member in &table.members {
                    self.member(member, start, start + table.size)?;
                }
                Some(table.size as u64)
            }
            Target::Direct(index) => {
                let count = self.sheet.take(32)?;
                let mut at = start;
                for _ in 0..count {
                    at += self.content(Target::Table(index), at)? as usize;
                }
                Some(count)
            }
        }
    }

    /// A member of the table whose fixed part is at `start` and ends at `end`.
    fn member(&mut self, member: &Member, start: usize, end: usize) -> Option<()> {
        let slot = &member.slot;
        let at = start + slot.offset;
        if self.sheet.take(2)? != PRESENT {
            self.absent(member.record.kind, at);
            return Some(());
        }
        if let Some(flag) = slot.flag {
            self.out[start + flag.byte] |= 1 << flag.bit;
        }
        if member.record.kind == Kind::Bool {
            self.out[at] |= (self.sheet.take(1)? as u8) << slot.bit;
            return Some(());
        }
        let behind = member.record.in_place.then_some(end);
        self.value(member.record.kind, at, behind)
    }

    /// "everything absent is zero (an absent struct throughout), except enum
    /// 255 and absent floats, which are 0x7FC00000 or 0x7FF8000000000000".
    fn absent(&mut self, kind: Kind, at: usize) {
        match kind {
            Kind::Enum { .. } => self.out[at] = NO_ENUM,
            Kind::Float { bytes: 4 } => self.put(at, 0x7FC0_0000, 4),
            Kind::Float { .. } => self.put(at, 0x7FF8_0000_0000_0000, 8),
            _ => {}
        }
    }

    /// A present value at `at`, a table's bool aside. `behind` is where
    /// content goes that is in place.
    fn value(&mut self, kind: Kind, at: usize, behind: Option<usize>) -> Option<()> {
        match kind {
            Kind::Bool => self.out[at] = self.sheet.take(1)? as u8,
            Kind::Enum { .. } => self.out[at] = self.sheet.take(8)? as u8,
            Kind::Integer { bytes, .. } | Kind::Float { bytes } => {
                let value = self.sheet.take(u32::from(bytes) * 8)?;
                self.put(at, value, usize::from(bytes));
            }
            Kind::Struct(index) => self.structure(index, at)?,
            Kind::Object(target) => self.reference(target, at, behind)?,
            Kind::Union(index) => {
                let choice = self.sheet.take(16)?;
                let target = self.schema.case(index, choice)?;
                self.put(at, choice, 2);
                self.reference(target, at + 2, behind)?;
            }
        }
        Some(())
    }

    /// What stands for an object: its offset, or its length in place.
    fn reference(&mut self, target: Target, at: usize, behind: Option<usize>) -> Option<()> {
        let number = match behind {
            Some(start) => self.content(target, start)?,
            None => self.head(target)? as u64,
        };
        self.put_offset(at, number);
        Some(())
    }

    /// "Struct: members joined without padding".
    fn structure(&mut self, index: u8, at: usize) -> Option<()> {
        let schema = self.schema;
        for member in &schema.structure(index).members {
            let at = at + member.offset;
            let marked = matches!(member.kind, Kind::Enum { .. });
            if marked && self.sheet.take(2)? != PRESENT {
                self.absent(member.kind, at);
            } else {
                self.value(member.kind, at, None)?;
            }
        }
        Some(())
    }

    fn elements(&mut self, index: u8, start: usize, count: usize) -> Option<()> {
        let kind = self.schema.element(index);
        let (step, marked) = match kind {
            Kind::Bool => return self.bools(start, count),
            Kind::Integer { bytes: 1, .. } => {
                return self.sheet.take_bytes(&mut self.out[start..start + count]);
            }
            Kind::Integer { bytes, .. } => (usize::from(bytes), false),
            Kind::Float { bytes } => (usize::from(bytes), true),
            Kind::Enum { .. } => (1, true),
            // A lawful list has no structs.
            Kind::Object(_) | Kind::Union(_) | Kind::Struct(_) => {
                (self.schema.reference_size(kind)?, true)
            }
        };
        for number in 0..count {
            let at = start + number * step;
            if marked && self.sheet.take(2)? != PRESENT {
                self.absent(kind, at);
            } else {
                self.value(kind, at, None)?;
            }
        }
        Some(())
    }

    /// "Bool i is (byte[i>>3] >> (i & 7)) & 1"; eight at a time.
    fn bools(&mut self, start: usize, count: usize) -> Option<()> {
        let whole = start + count / 8;
        for at in start..whole {
            self.out[at] = (self.sheet.take(8)? as u8).reverse_bits();
        }
        let rest = (count % 8) as u32;
        if rest > 0 {
            let bits = (self.sheet.take(rest)? as u8) << (8 - rest);
            self.out[whole] = bits.reverse_bits();
        }
        Some(())
    }
}
