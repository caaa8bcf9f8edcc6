//! Lists that each name the next table twice, so that the walk doubles at every
//! level.

use crate::canonical::{magic, MESSAGE_MAGIC};
use crate::coding::Coding;
use crate::program::Budget;
use crate::schema::{root_with, Record, Schema, LIST, TABLE};

/// A root with a list of tables like itself.
pub fn schema(coding: Coding) -> Schema {
    Schema {
        lists: vec![Record::plain(TABLE, 0)],
        ..root_with(coding, Record::plain(LIST, 0))
    }
}

/// Where the table of a level stands: each has a reference, and between two is
/// a list of two.
pub fn table_at(coding: Coding, level: u64) -> u64 {
    let (offset, header) = (coding.offset() as u64, coding.header() as u64);
    header + level * (header + offset + header + 2 * offset)
}

/// What the walk spends: each level has twice the tables of the one before, and
/// as many lists of two below it.
pub fn spent(coding: Coding, levels: u64) -> Budget {
    let (tables, lists) = ((2 << levels) - 1, (1 << levels) - 1);
    Budget {
        visits: (tables + lists) as u32,
        content: coding.offset() as u64 * (tables + 2 * lists),
    }
}

/// The tables of levels 0 to `levels`, the last without a list.
pub fn message(schema: &Schema, levels: u64) -> Vec<u8> {
    let coding = schema.coding;
    let mut message = Vec::new();
    let mut put = |magic: u32, numbers: &[u64]| {
        message.extend_from_slice(&magic.to_le_bytes());
        message.extend(numbers.iter().flat_map(|number| coding.bytes(*number)));
    };
    let list_magic = magic(schema, &Record::plain(LIST, 0));
    let (id, fixed) = (schema.tables[0].id, coding.offset() as u64);
    put(MESSAGE_MAGIC, &[table_at(coding, 0)]);
    for level in 0..levels {
        let (table, next) = (table_at(coding, level), table_at(coding, level + 1));
        put(id, &[fixed, table + coding.header() as u64 + fixed]);
        put(list_magic, &[2, next, next]);
    }
    put(id, &[fixed, 0]);
    message
}
