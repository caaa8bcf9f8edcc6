//! A message to its value sheet.

use crate::bits::{BitWriter, Full};
use crate::message::{
    element_lead, find, is_nan, member_lead, number, open, open_message, Lead, Object, Refusal,
    Spot, NO_ENUM, SIZE,
};
use crate::positions::Lent;
use crate::schema::{Kind, Member, Schema, Target};
use crate::walk::{judge_parsed, Budget, Verdict};

/// "2-bit mark: 0 absent, 1 present, 2 unknown, 3 not lawful".
pub const ABSENT: u64 = 0;
pub const PRESENT: u64 = 1;
pub const UNKNOWN: u64 = 2;

/// Reads a message to its value sheet: the verdict and, where it is 0, the
/// sheet. "Reading to a sheet gives the verdict's refusal first, then 14 with
/// the full visits" and content, where the sheet is over the size or over `room`.
pub fn read(lent: Lent, message: &[u8], budget: Budget, room: usize) -> (Verdict, Vec<u8>) {
    let Some(schema) = lent.parse() else {
        return (Verdict::not_lawful(), Vec::new());
    };
    let verdict = judge_parsed(&schema, message, budget);
    if verdict.number != 0 {
        return (verdict, Vec::new());
    }
    match sheet_of(&schema, message, room.min(SIZE)) {
        Ok(sheet) => (verdict, sheet),
        Err(Stop::Full) => (verdict.refused(Refusal::new(14, 0)), Vec::new()),
        // An accepted message has no refusal in it.
        Err(Stop::Refused(refusal)) => (verdict.refused(refusal), Vec::new()),
    }
}

/// Why no sheet came out.
enum Stop {
    Full,
    Refused(Refusal),
}

impl From<Full> for Stop {
    fn from(_: Full) -> Stop {
        Stop::Full
    }
}

impl From<Refusal> for Stop {
    fn from(refusal: Refusal) -> Stop {
        Stop::Refused(refusal)
    }
}

/// "The root table's content, then zero bits to the byte end, nothing more."
fn sheet_of(schema: &Schema, message: &[u8], limit: usize) -> Result<Vec<u8>, Stop> {
    let mut sheet = Sheet {
        schema,
        message,
        out: BitWriter::with_limit(limit as u64),
    };
    let (root, spot) = open_message(schema, message)?;
    sheet.object(root, spot, 1)?;
    Ok(sheet.out.finish())
}

struct Sheet<'a> {
    schema: &'a Schema,
    message: &'a [u8],
    out: BitWriter,
}

impl Sheet<'_> {
    /// "text or bytes a 32-bit length and the bytes; list a 32-bit count and
    /// elements; table its members". Of a direct list "A sheet holds a 32-bit
    /// count and the elements without marks."
    fn object(&mut self, target: Target, spot: Spot, depth: u32) -> Result<(), Stop> {
        let object = open(self.schema, self.message, target, spot, depth)?;
        match target {
            Target::Text | Target::Bytes => {
                self.out.put(object.length as u64, 32)?;
                let bytes = &self.message[object.start..object.end()];
                Ok(self.out.put_bytes(bytes)?)
            }
            Target::List(index) => {
                self.out.put(object.length as u64, 32)?;
                self.elements(index, &object, depth)
            }
            Target::Table(index) => self.table(index, &object, depth),
            Target::Direct(index) => {
                self.out.put(object.length as u64, 32)?;
                for number in 0..object.length {
                    let element = object.direct_element(number);
                    self.object(Target::Table(index), element, depth + 1)?;
                }
                Ok(())
            }
        }
    }

    /// "Table members in order, each with a 2-bit mark".
    fn table(&mut self, index: u8, table: &Object, depth: u32) -> Result<(), Stop> {
        for member in &self.schema.table(index).members {
            match find(self.message, table, member)? {
                Some(at) => self.member(member, table, at, depth)?,
                None => self.out.put(ABSENT, 2)?,
            }
        }
        Ok(())
    }

    /// A member whose value stands at `at`.
    fn member(
        &mut self,
        member: &Member,
        table: &Object,
        at: usize,
        depth: u32,
    ) -> Result<(), Stop> {
        match member.record.kind {
            Kind::Bool => {
                let bit = self.message[at] >> member.slot.bit & 1;
                Ok(self.out.put(PRESENT << 1 | u64::from(bit), 3)?)
            }
            Kind::Integer { bytes, .. } => {
                self.out.put(PRESENT, 2)?;
                self.number(at, bytes)
            }
            Kind::Float { bytes } => self.float(at, bytes, member.record.optional),
            Kind::Enum { count } => self.enumeration(at, count),
            Kind::Struct(index) => {
                self.out.put(PRESENT, 2)?;
                self.structure(index, at)
            }
            Kind::Object(_) | Kind::Union(_) => {
                let lead = member_lead(self.schema, self.message, table, member, at)?;
                self.follow(lead, depth)
            }
        }
    }

    /// An integer or a float's bits, at their width.
    fn number(&mut self, at: usize, bytes: u8) -> Result<(), Stop> {
        let value = number(self.message, at, bytes);
        Ok(self.out.put(value, u32::from(bytes) * 8)?)
    }

    /// A float with its mark. A NaN is no value in an optional member and in a
    /// list; in a plain member it is a value.
    fn float(&mut self, at: usize, bytes: u8, nan_is_absent: bool) -> Result<(), Stop> {
        let value = number(self.message, at, bytes);
        if nan_is_absent && is_nan(value, bytes) {
            return Ok(self.out.put(ABSENT, 2)?);
        }
        self.out.put(PRESENT, 2)?;
        Ok(self.out.put(value, u32::from(bytes) * 8)?)
    }

    /// "Enum byte 255 is no value, everywhere. A byte at or above the count,
    /// not 255, is unknown."
    fn enumeration(&mut self, at: usize, count: u8) -> Result<(), Stop> {
        let byte = self.message[at];
        if byte == NO_ENUM {
            return Ok(self.out.put(ABSENT, 2)?);
        }
        let mark = if byte < count { PRESENT } else { UNKNOWN };
        Ok(self.out.put(mark << 8 | u64::from(byte), 10)?)
    }

    /// "enum struct members have a mark too ...; other struct members have
    /// none".
    fn structure(&mut self, index: u8, at: usize) -> Result<(), Stop> {
        let schema = self.schema;
        for member in &schema.structure(index).members {
            let at = at + member.offset;
            match member.kind {
                Kind::Bool => self.out.put(u64::from(self.message[at] & 1), 1)?,
                Kind::Integer { bytes, .. } | Kind::Float { bytes } => self.number(at, bytes)?,
                Kind::Enum { count } => self.enumeration(at, count)?,
                Kind::Struct(index) => self.structure(index, at)?,
                // A lawful struct has no others.
                Kind::Object(_) | Kind::Union(_) => {}
            }
        }
        Ok(())
    }

    /// "Elements ... have a mark too, except bool and integer elements".
    fn elements(&mut self, index: u8, list: &Object, depth: u32) -> Result<(), Stop> {
        let kind = self.schema.element(index);
        match kind {
            Kind::Bool => self.bools(list)?,
            Kind::Integer { bytes: 1, .. } => {
                let bytes = &self.message[list.start..list.end()];
                self.out.put_bytes(bytes)?;
            }
            Kind::Integer { bytes, .. } => {
                for number in 0..list.length {
                    self.number(list.start + number * usize::from(bytes), bytes)?;
                }
            }
            Kind::Float { bytes } => {
                for number in 0..list.length {
                    self.float(list.start + number * usize::from(bytes), bytes, true)?;
                }
            }
            Kind::Enum { count } => {
                for at in list.start..list.end() {
                    self.enumeration(at, count)?;
                }
            }
            Kind::Object(_) => self.references(kind, self.schema.coding.offset(), list, depth)?,
            Kind::Union(_) => self.references(kind, self.schema.coding.union(), list, depth)?,
            // A lawful list has no structs.
            Kind::Struct(_) => {}
        }
        Ok(())
    }

    /// "Bool i is (byte[i>>3] >> (i & 7)) & 1; unused bits are ignored." Eight
    /// at a time: the lowest bit comes first.
    fn bools(&mut self, list: &Object) -> Result<(), Stop> {
        let whole = list.start + list.length / 8;
        for at in list.start..whole {
            let byte = self.message[at].reverse_bits();
            self.out.put(u64::from(byte), 8)?;
        }
        let rest = list.length % 8;
        if rest > 0 {
            let byte = self.message[whole].reverse_bits() >> (8 - rest);
            self.out.put(u64::from(byte), rest as u32)?;
        }
        Ok(())
    }

    /// The elements of an offset list, `size` bytes each.
    fn references(
        &mut self,
        kind: Kind,
        size: usize,
        list: &Object,
        depth: u32,
    ) -> Result<(), Stop> {
        for number in 0..list.length {
            let lead = element_lead(self.schema, self.message, list, kind, size, number)?;
            self.follow(lead, depth)?;
        }
        Ok(())
    }

    /// "union a 16-bit choice and the object. Unknown ...: the ... 16-bit
    /// number".
    fn follow(&mut self, lead: Lead, depth: u32) -> Result<(), Stop> {
        match lead {
            Lead::Absent => Ok(self.out.put(ABSENT, 2)?),
            Lead::Unknown(choice) => Ok(self.out.put(UNKNOWN << 16 | u64::from(choice), 18)?),
            Lead::Object {
                choice,
                target,
                spot,
            } => {
                self.out.put(PRESENT, 2)?;
                if let Some(choice) = choice {
                    self.out.put(u64::from(choice), 16)?;
                }
                self.object(target, spot, depth + 1)
            }
        }
    }
}
