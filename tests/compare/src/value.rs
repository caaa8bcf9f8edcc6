//! Values as trees: what a message says, apart from how it is laid out.

use crate::program::Budget;
use crate::schema::*;
use crate::text_gen::is_text;

/// One entry of a sheet: a table member, an element or a struct member.
#[derive(Clone, Debug, PartialEq, Eq, Hash)]
pub enum Value {
    Absent,
    /// An enum number or a union choice that the schema does not know.
    Unknown(u16),
    Bool(bool),
    /// An integer's or a float's bits, or an enum's number.
    Number(u64),
    Struct(Vec<Value>),
    /// A text or a blob of bytes.
    Blob(Vec<u8>),
    /// A list, or a direct list, whose elements are all tables.
    List(Vec<Value>),
    Table(Vec<Value>),
    /// The choice, counted from 1, and the object.
    Union(u16, Box<Value>),
}

/// What holds an entry.
#[derive(Clone, Copy, Debug, PartialEq, Eq)]
pub enum Holder {
    Table,
    List,
    Struct,
    Union,
}

/// Whether the bits of a float of this record are a NaN.
pub fn is_nan(record: &Record, bits: u64) -> bool {
    if record.kind == F32 {
        f32::from_bits(bits as u32).is_nan()
    } else {
        f64::from_bits(bits).is_nan()
    }
}

/// How many objects a value holds, itself included.
pub fn objects(value: &Value) -> usize {
    match value {
        Value::Blob(_) => 1,
        Value::List(parts) | Value::Table(parts) => 1 + parts.iter().map(objects).sum::<usize>(),
        Value::Union(_, object) => objects(object),
        _ => 0,
    }
}

/// What is spent on the message that is written of a root value: its objects, and
/// their content with each fixed part in full.
pub fn spent(schema: &Schema, root: &Value) -> Budget {
    Budget {
        visits: objects(root) as u32,
        content: content_below(schema, &Record::plain(TABLE, schema.root), root),
    }
}

fn content_below(schema: &Schema, record: &Record, value: &Value) -> u64 {
    let argument = usize::from(record.argument);
    match value {
        Value::Blob(bytes) => bytes.len() as u64,
        Value::List(parts) => {
            let element = schema.element_of(record);
            let below = parts
                .iter()
                .map(|part| content_below(schema, &element, part));
            let own = schema.content(record.kind, record.argument, parts.len() as u64);
            own + below.sum::<u64>()
        }
        Value::Table(parts) => {
            let members = schema.tables[argument].members.iter().zip(parts);
            let below = members.map(|(member, part)| content_below(schema, member, part));
            schema.slots(record.argument).1 as u64 + below.sum::<u64>()
        }
        Value::Union(choice, object) => {
            let case = &schema.unions[argument][usize::from(*choice) - 1];
            content_below(schema, case, object)
        }
        _ => 0,
    }
}

/// The most objects on one way down from a value, itself included.
pub fn depth(value: &Value) -> u32 {
    match value {
        Value::Blob(_) => 1,
        Value::List(parts) | Value::Table(parts) => 1 + parts.iter().map(depth).max().unwrap_or(0),
        Value::Union(_, object) => depth(object),
        _ => 0,
    }
}

/// Calls `see` for every entry below an object, in walk order.
pub fn visit<F>(schema: &Schema, record: &Record, value: &mut Value, see: &mut F)
where
    F: FnMut(Holder, &Record, &mut Value),
{
    let argument = usize::from(record.argument);
    let (holder, records, parts) = match value {
        Value::Table(parts) => (Holder::Table, &schema.tables[argument].members, parts),
        Value::Struct(parts) => (Holder::Struct, &schema.structs[argument], parts),
        Value::List(parts) => {
            let element = schema.element_of(record);
            for part in parts {
                see(Holder::List, &element, part);
                visit(schema, &element, part, see);
            }
            return;
        }
        Value::Union(choice, object) => {
            let case = schema.unions[argument][usize::from(*choice) - 1];
            see(Holder::Union, &case, object);
            return visit(schema, &case, object, see);
        }
        _ => return,
    };
    for (member, part) in records.iter().zip(parts) {
        see(holder, member, part);
        visit(schema, member, part, see);
    }
}

/// Whether some entry below the root is so, by its holder, its record and its value.
fn some_entry<F>(schema: &Schema, root: &Value, is: F) -> bool
where
    F: Fn(Holder, &Record, &Value) -> bool,
{
    let mut found = false;
    let mut see = |holder: Holder, record: &Record, value: &mut Value| {
        found |= is(holder, record, value);
    };
    let record = Record::plain(TABLE, schema.root);
    visit(schema, &record, &mut root.clone(), &mut see);
    found
}

/// Whether a value has a direct list with an element.
pub fn has_direct_elements(schema: &Schema, root: &Value) -> bool {
    some_entry(schema, root, |_, record, value| {
        record.kind == DIRECT && matches!(value, Value::List(parts) if !parts.is_empty())
    })
}

/// Whether every text of a value is text.
pub fn texts_are_text(schema: &Schema, root: &Value) -> bool {
    !some_entry(schema, root, |_, record, value| {
        record.kind == TEXT && matches!(value, Value::Blob(bytes) if !is_text(bytes))
    })
}

/// Whether the entry can stand in a message to be written.
fn entry_writable(schema: &Schema, holder: Holder, record: &Record, value: &Value) -> bool {
    let plain = record.kind <= F64 || record.kind == STRUCT;
    match value {
        Value::Unknown(_) => false,
        Value::Absent => holder != Holder::Table || !plain || record.optional,
        Value::Number(bits) if record.is_float() => {
            let nan_is_absent = holder == Holder::List || record.optional;
            !(nan_is_absent && is_nan(record, *bits))
        }
        Value::Blob(bytes) => {
            let lawful = record.kind != TEXT || is_text(bytes);
            lawful && !(record.in_place && bytes.is_empty())
        }
        Value::List(parts) => !record.in_place || !parts.is_empty(),
        Value::Table(_) => !record.in_place || schema.slots(record.argument).1 > 0,
        _ => true,
    }
}

/// Whether a value has a union that is present in place.
pub fn has_union_in_place(schema: &Schema, root: &Value) -> bool {
    some_entry(schema, root, |_, record, value| {
        record.in_place && matches!(value, Value::Union(..))
    })
}

/// Whether a lawful value can be written: "From now the writer refuses a present one
/// under the 48-bit coding", "The 32-bit coding keeps them."
pub fn writable(schema: &Schema, root: &Value) -> bool {
    let kept = schema.coding.is_older() || !has_union_in_place(schema, root);
    kept && was_writable(schema, root)
}

/// Whether a lawful value could be written while unions in place were.
pub fn was_writable(schema: &Schema, root: &Value) -> bool {
    !some_entry(schema, root, |holder, record, value| {
        !entry_writable(schema, holder, record, value)
    })
}
