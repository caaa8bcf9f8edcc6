//! Member positions worked out beforehand: the table that a schema has under
//! its coding, and the schema that a reader takes with a table.

use crate::schema::{Bit, Kind, Member, Schema};

/// "its flag's (4,294,967,295 if none)"
const NO_FLAG: u32 = 4_294_967_295;

/// What every reader is given beside a message: "a table built once from a
/// lawful schema under its coding ... and lent to the readers".
#[derive(Clone, Copy, Debug)]
pub struct Lent<'a> {
    pub coding: u32,
    pub schema: &'a [u8],
    pub positions: &'a [u8],
}

impl Lent<'_> {
    /// The schema, where it is lawful and the table is its own: "Any other
    /// table handed in gets refusal 1, tried with the schema."
    pub fn parse(self) -> Option<Schema> {
        let schema = Schema::parse(self.coding, self.schema)?;
        let right = table_of(&schema).eq(self.positions.iter().copied());
        right.then_some(schema)
    }
}

/// The table of a schema. Number 0, 1 or 14, and the table where it is 0: "a
/// lawful schema under its coding (else 1, then 14, nothing written)".
pub fn positions(coding: u32, schema: &[u8], room: usize) -> (u32, Vec<u8>) {
    let Some(schema) = Schema::parse(coding, schema) else {
        return (1, Vec::new());
    };
    let table: Vec<u8> = table_of(&schema).collect();
    if table.len() > room {
        return (14, Vec::new());
    }
    (0, table)
}

/// "for each table member in schema order three little-endian U32s".
fn table_of(schema: &Schema) -> impl Iterator<Item = u8> + '_ {
    let members = schema.tables.iter().flat_map(|table| &table.members);
    members.flat_map(row).flat_map(u32::to_le_bytes)
}

/// "its value's first bit in the fixed part, its flag's (4,294,967,295 if
/// none) and its size in bits".
fn row(member: &Member) -> [u32; 3] {
    let slot = &member.slot;
    let value = Bit {
        byte: slot.offset,
        bit: slot.bit,
    };
    let size = match member.record.kind {
        Kind::Bool => 1,
        _ => 8 * slot.size as u32,
    };
    [number_of(value), slot.flag.map_or(NO_FLAG, number_of), size]
}

/// A bit's number in the fixed part: 64 members of at most 4,096 bytes each,
/// with their flags, are far below 2^32 bits.
fn number_of(bit: Bit) -> u32 {
    8 * bit.byte as u32 + bit.bit
}

#[cfg(test)]
mod tests {
    use super::positions;

    /// The rows of a schema of one table with the given records.
    fn rows(coding: u32, records: &[u16]) -> Vec<[u32; 3]> {
        let mut schema = vec![0, 0, 0, 1, 0, 0, 0, 0, 1, records.len() as u8];
        schema.extend(records.iter().flat_map(|record| record.to_be_bytes()));
        let (number, table) = positions(coding, &schema, 12 * records.len());
        assert_eq!(number, 0);
        let number = |bytes: &[u8]| u32::from_le_bytes(bytes.try_into().unwrap());
        (table.chunks(12))
            .map(|row| [number(&row[..4]), number(&row[4..8]), number(&row[8..])])
            .collect()
    }

    /// Bool, U32, optional U16, optional bool, optional F64, text, bytes in place.
    #[test]
    fn a_row_has_the_value_the_flag_and_the_size_in_bits() {
        let records = [0x0000, 0x1800, 0x1400, 0x0400, 0x5400, 0x6800, 0x7200];
        let none = u32::MAX;
        let before = [
            [0, none, 1],
            [8, none, 32],
            [40, 1, 16],
            [3, 2, 1],
            [56, none, 64],
        ];
        let in_48 = [[120, none, 48], [168, none, 48]];
        assert_eq!(rows(48, &records), [&before[..], &in_48].concat());
        let in_32 = [[120, none, 32], [152, none, 32]];
        assert_eq!(rows(32, &records), [&before[..], &in_32].concat());
    }

    /// Case 12: "Bools 7 then an optional bool: flag bit 7 of byte 0, value
    /// bit 0 of byte 1."
    #[test]
    fn the_flag_and_the_value_of_an_optional_bool_may_part() {
        let rows = rows(48, &[0, 0, 0, 0, 0, 0, 0, 0x0400]);
        assert_eq!(rows[6], [6, u32::MAX, 1]);
        assert_eq!(rows[7], [8, 7, 1]);
    }
}
