//! A schema "in which only the in-place flag of those unions is cleared": what
//! a stored message is written with after its sheet was read by the first.
//!
//! Request K12 speaks of the 48-bit coding: "The 32-bit coding keeps them." So
//! no coding is asked for, and the schema is judged under 48 bits.

use crate::schema::{Kind, Record, Schema};

/// "Record, 16 bits: kind 5, optional 1, in place 1, zero 1, argument 8.": the
/// flag in a record's first byte.
const IN_PLACE: u8 = 1 << 1;

/// Clears a schema. Number 0, 1 or 14; the cleared schema where it is 0, as
/// long as the first.
pub fn clear_unions(schema: &[u8], room: usize) -> (u32, Vec<u8>) {
    let Some(parsed) = Schema::parse(48, schema) else {
        return (1, Vec::new());
    };
    if schema.len() > room {
        return (14, Vec::new());
    }
    let mut cleared = schema.to_vec();
    let mut at = tables_start(&parsed);
    for table in &parsed.tables {
        // "table: 32-bit id, 8-bit member count 0 to 64, records."
        at += 5;
        for member in &table.members {
            if is_union_in_place(&member.record) {
                cleared[at] &= !IN_PLACE;
            }
            at += 2;
        }
    }
    (0, cleared)
}

/// "those unions": every member of a table that is a union and in place.
fn is_union_in_place(record: &Record) -> bool {
    record.in_place && matches!(record.kind, Kind::Union(_))
}

/// Where the first table starts: behind four counts, the root, the structs and
/// unions with their counts, and the lists.
fn tables_start(schema: &Schema) -> usize {
    let counted = |records: usize| 1 + 2 * records;
    let structs = schema.structs.iter().map(|one| counted(one.members.len()));
    let unions = schema.unions.iter().map(|cases| counted(cases.len()));
    5 + structs.sum::<usize>() + 2 * schema.lists.len() + unions.sum::<usize>()
}
